/* A program that keeps a record: root and alice work in a tree. What alice learns is printed at once, and each call is written to the file that is named.
   `hurd learn --record 1 FILE` then prints the same lessons after the same calls. */
#include "hurd.h"
#include <stdbool.h>
#include <stdio.h>
#include <stdlib.h>
#include <string.h>

enum { ROOT = 0, ALICE = 1 };

static hurd_world world = HURD_NO_WORLD;
static FILE *record;

/* Ends the program, and says why. */
static void fail(const char *why)
{
    fprintf(stderr, "record: %s\n", why);
    hurd_end(&world);
    exit(2);
}

/* Ends the program if the library did not do what it was asked. */
static void expect(uint32_t status)
{
    if (status != HURD_DONE)
        fail(status == HURD_MEMORY ? "out of memory" : "no such call");
}

/* Writes what the library told last: lessons, which begin with a space, to standard output, and the lines of calls to the record. Replies begin with a bar. */
static void keep(void)
{
    FILE *to = NULL;
    uint8_t some[256];
    size_t from = 0, count;
    while ((count = hurd_told(&world, from, some, sizeof some))) {
        for (size_t at = 0; at < count; at++) {
            if (!to)
                to = some[at] == ' ' ? stdout : some[at] == '|' || some[at] == '\n' ? stderr : record;
            if (to != stderr)
                putc(some[at], to);
            if (some[at] == '\n')
                to = NULL;
        }
        from += count;
    }
}

/* Makes a call by numbers and bytes: its line goes to the record, and what alice learns is printed. Returns the number of the reply. */
static uint64_t call(hurd_request request, const char *bytes)
{
    uint8_t line[256], data[256];
    hurd_said said = hurd_line(&request, (const uint8_t *)bytes, strlen(bytes), line, sizeof line);
    expect(said.status);
    if (said.length > sizeof line)
        fail("a line is too long for its room");
    fprintf(record, "%.*s\n", (int)said.length, (const char *)line);
    hurd_reply reply = hurd_call(&world, &request, (const uint8_t *)bytes, strlen(bytes), data, sizeof data);
    expect(reply.status);
    keep();
    if (reply.reply.which == HURD_IS_REFUSED)
        fail("a call is refused");
    return reply.reply.number;
}

/* Opens a path for a task, as the commands of a script do: all calls that this takes go to the record. Returns the port. */
static uint64_t open_path(uint32_t task, const char *path, uint32_t flags, uint32_t mode)
{
    hurd_request request = { .task = task, .port = 2, .flags = flags, .mode = mode };
    hurd_reply reply = hurd_open(&world, &request, (const uint8_t *)path, strlen(path));
    expect(reply.status);
    keep();
    if (reply.reply.which != HURD_IS_PORT)
        fail("a path is not opened");
    return reply.reply.number;
}

int main(int count, char **words)
{
    static const char tasks[] = "task 0 0\ntask 1000 1000\n";
    record = count == 2 ? fopen(words[1], "w") : NULL;
    if (!record) {
        fputs("usage: record FILE\n", stderr);
        return 2;
    }
    fputs(tasks, record);
    expect(hurd_begin(&world, (const uint8_t *)tasks, strlen(tasks), NULL, 0).status);
    expect(hurd_watch(&world, (const uint8_t *)"1", 1).status);
    uint64_t notice = open_path(ROOT, "/notice", HURD_WRITE | HURD_CREATE, 0644);
    call((hurd_request){ .task = ROOT, .call = HURD_IO_WRITE, .port = notice, .offset = -1 }, "The tree is open.\n");
    call((hurd_request){ .task = ROOT, .call = HURD_PORT_DEALLOCATE, .port = notice }, "");
    uint64_t read = open_path(ALICE, "/notice", HURD_READ, 0);
    call((hurd_request){ .task = ALICE, .call = HURD_IO_READ, .port = read, .amount = 256, .offset = -1 }, "");
    hurd_end(&world);
    bool is_cut = ferror(record) | ferror(stdout) | fflush(stdout);
    if (fclose(record) || is_cut)
        fail("cannot write");
    return 0;
}
