/* Does through the library what `hurd_trials bench` does in its own process for the rows create and stat: three calls for each file, in a world that is kept. Then it does stat
   again, while another task that sees all files is watched. Prints rows of the same form.

   embed FILES LINES WAY: LINES calls are in a text, 1 or more, or 0 if each is made as numbers and bytes; WAY is what the rows are called. To write the lines is part of the work.
   With 0 it also does stat with the path opened by `hurd_open`, and writes and reads 65,536 bytes at a time, as `memcpy` copies them, in a file of 1 MB. Status 1 with one line where something goes wrong. */
#define _GNU_SOURCE
#include "hurd.h"
#include <stdarg.h>
#include <stdio.h>
#include <stdlib.h>
#include <string.h>
#include <time.h>

enum { directory_size = 1000, room = 1 << 22 };

/* the text that is written, how many lines it has and may have, and what the last one told */
static char text[1 << 20];
static uint8_t out[room];
static size_t size;
static long lines, most_lines;

static hurd_world world = HURD_NO_WORLD;
/* the user's next port: their numbers go up */
static long port = 3;

static void must(int holds, const char *what) {
    if (!holds) {
        printf("%s\n", what);
        exit(1);
    }
}

/* Gives the text to the library. */
static void make(void) {
    hurd_said said = hurd_make(&world, (const uint8_t *)text, size, out, room);
    must(said.status == HURD_DONE && said.length <= room, "a text is bad, or memory is refused");
    must(!memmem(out, said.length, "Refused", 7), "a call is refused");
    size = lines = 0;
}

/* Writes a line of the text, which is made when it has its lines. */
static void call(const char *format, ...) {
    va_list words;
    va_start(words, format);
    size += vsnprintf(text + size, sizeof text - size, format, words);
    va_end(words);
    must(size < sizeof text, "too many lines");
    if (++lines >= most_lines)
        make();
}

/* Makes a call as numbers and bytes, and gives the number of its reply. */
static uint64_t made(const hurd_request *request, const char *bytes, size_t count) {
    hurd_reply is = hurd_call(&world, request, (const uint8_t *)bytes, count, out, room);
    must(is.status == HURD_DONE && is.reply.which != HURD_IS_REFUSED, "a call is refused");
    return is.reply.number;
}

/* Opens a path by `hurd_open`, and gives its port. */
static uint64_t opened(const hurd_request *request, const char *path, size_t count) {
    hurd_reply is = hurd_open(&world, request, (const uint8_t *)path, count);
    must(is.status == HURD_DONE && is.reply.which == HURD_IS_PORT, "a path is not opened");
    return is.reply.number;
}

/* Opens a file by numbers, makes a call on it, and closes it. */
static void by_numbers(long file, uint32_t flags, uint32_t which, const char *bytes, int by_path) {
    char path[64];
    int length = snprintf(path, sizeof path, "d%ld/f%ld", file / directory_size, file);
    const hurd_request look_up = { .task = 1, .call = HURD_DIR_LOOKUP, .port = 1, .flags = flags, .mode = 0644 };
    uint64_t found = by_path ? opened(&look_up, path, length) : made(&look_up, path, length);
    made(&(hurd_request){ .task = 1, .call = which, .port = found, .offset = -1 }, bytes, strlen(bytes));
    made(&(hurd_request){ .task = 1, .call = HURD_PORT_DEALLOCATE, .port = found }, "", 0);
}

static void create(long file) {
    if (!most_lines) {
        by_numbers(file, HURD_WRITE | HURD_CREATE, HURD_IO_WRITE, "contents", 0);
        return;
    }
    call("1 dir_lookup 1 =d%ld/f%ld WRITE,CREATE 644\n", file / directory_size, file);
    call("1 io_write %ld =contents -1\n", port);
    call("1 port_deallocate %ld\n", port++);
}

static void stat_one(long file) {
    if (!most_lines) {
        by_numbers(file, 0, HURD_IO_STAT, "", 0);
        return;
    }
    call("1 dir_lookup 1 =d%ld/f%ld - 0\n", file / directory_size, file);
    call("1 io_stat %ld\n", port);
    call("1 port_deallocate %ld\n", port++);
}

static void stat_opened(long file) {
    by_numbers(file, 0, HURD_IO_STAT, "", 1);
}

static long long now(void) {
    struct timespec t;
    clock_gettime(CLOCK_MONOTONIC, &t);
    return t.tv_sec * 1000000000LL + t.tv_nsec;
}

static void measure(const char *way, const char *name, void (*once)(long file), long files) {
    long long start = now();
    for (long i = 0; i < files; i++)
        once(i);
    if (most_lines)
        make();
    printf("%s, %s: %ld done, %lld ns each\n", way, name, files, (now() - start) / files);
}

/* Writes and reads the same blocks of a file, and copies them, so many times; prints how long each takes. */
static void measure_data(void) {
    enum { block = 65536, blocks = 16, rounds = 200 };
    static char from[block * blocks], to[block * blocks];
    uint64_t file = made(&(hurd_request){ .task = 1, .call = HURD_DIR_LOOKUP, .port = 1, .flags = HURD_READ | HURD_WRITE | HURD_CREATE, .mode = 0644 }, "d0/data", 7);
    const char *names[] = { "io_write", "io_read", "memcpy" };
    long long took[3];
    memset(from, 'x', sizeof from);
    for (int way = 0; way < 3; way++) {
        long long start = now();
        for (int i = 0; i < rounds * blocks; i++) {
            int64_t at = (int64_t)(i % blocks) * block;
            if (way == 2)
                memcpy(to + at, from + at, block);
            else
                made(&(hurd_request){ .task = 1, .call = way ? HURD_IO_READ : HURD_IO_WRITE, .port = file, .amount = block, .offset = at }, from + at, way ? 0 : block);
            __asm__ volatile("" : : "r"(to) : "memory");
        }
        took[way] = (now() - start) / (rounds * blocks);
        printf("data: %s of 65536 bytes: %lld ns\n", names[way], took[way]);
    }
    printf("data: io_write %.1f and io_read %.1f times memcpy\n", (double)took[0] / took[2], (double)took[1] / took[2]);
}

int main(int count, char **words) {
    must(count == 4, "usage: embed FILES LINES WAY");
    long files = atol(words[1]);
    most_lines = atol(words[2]);
    must(files > 0 && most_lines >= 0, "FILES is a number from 1 on, and LINES from 0 on");
    const char *tasks = "task 0 0\ntask 1000 1000\ntask 1001 1001\n";
    hurd_said said = hurd_begin(&world, (const uint8_t *)tasks, strlen(tasks), out, room);
    must(said.status == HURD_DONE, "no world was begun");
    for (long i = 0; i * directory_size < files; i++)
        call("0 dir_mkdir 1 =d%ld 777\n", i);
    if (lines)
        make();
    measure(words[3], "create", create, files);
    measure(words[3], "stat", stat_one, files);
    if (!most_lines)
        measure(words[3], "stat by hurd_open", stat_opened, files);
    /* another task sees all files, and what it learns is told */
    must(hurd_watch(&world, (const uint8_t *)"2", 1).status == HURD_DONE, "a watch is refused");
    measure(words[3], "stat, watched", stat_one, files);
    must(hurd_watch(&world, (const uint8_t *)"", 0).status == HURD_DONE, "a watch is not ended");
    if (!most_lines)
        measure_data();
    hurd_end(&world);
    return 0;
}
