/* Steps of a program over the library, a word each. begin=TEXT, make=TEXT, watch=WHO, told=FROM and end are about a world that is kept; run=TEXT, learn=TEXT, see=TEXT,
   can=TEXT and draw=TEXT about a whole text. call=BYTES makes one call in the world, line=BYTES gives its line, and open=PATH opens a path; numbers=N,.. has its numbers, in the order of
   hurd_request, and a `|` among the bytes stands for a zero byte. After each except `end` it prints the bytes that were copied, if any may be, and a line that says how
   it ended. room=N, kind=N, who=WHO and every=N say what the later steps are given, and file=NAME which file has the next text.

   Each text and each room has a block of its own of that size, so that a tool which checks memory sees a byte too many. Bytes after those that were copied should
   be as they were. With the first word `on` the program goes on if memory is refused; without it, it says so and ends. */
#include "hurd.h"
#include <stdio.h>
#include <stdlib.h>
#include <string.h>

/* what room is filled with, and the longest file */
enum { FILLED = 0xa5, MOST = 1 << 22 };

/* what the steps work on, and how */
static hurd_world world = HURD_NO_WORLD;
static size_t room = 4096;
static int goes_on;
static uint32_t kind, every;
static hurd_request request;
static const char *who = "", *file;
static uint8_t *text, *named, *out;

/* Gives all up, and ends. */
static void end(int status)
{
    hurd_end(&world);
    free(text);
    free(named);
    free(out);
    exit(status);
}

/* Says that there is no memory, and ends. */
static void lack(void)
{
    fputs("hurd: out of memory\n", stderr);
    end(2);
}

/* A block of its own for so many bytes. */
static uint8_t *block(size_t size)
{
    uint8_t *got = malloc(size ? size : 1);
    if (!got)
        lack();
    return got;
}

/* Prints what was copied; the bytes after it should be as they were. */
static void show(size_t count)
{
    fwrite(out, 1, count, stdout);
    for (size_t i = count; i < room; i++)
        if (out[i] != FILLED) {
            puts("a byte after those that were copied was changed");
            end(3);
        }
}

/* Room for what is told. */
static void fill(void)
{
    out = block(room);
    memset(out, FILLED, room);
}

/* Gives the blocks of a step up. */
static void give_up(void)
{
    free(text);
    free(named);
    free(out);
    text = named = out = NULL;
}

/* Prints how a step ended. */
static void say_end(hurd_said said)
{
    if (said.status == HURD_MEMORY && !goes_on)
        lack();
    printf("[status %u error %u line %llu length %zu]\n", (unsigned)said.status, (unsigned)said.error, (unsigned long long)said.line, said.length);
    give_up();
}

/* Prints what a text told, and how it ended. */
static void say(hurd_said said)
{
    show(said.length < room ? said.length : room);
    say_end(said);
}

/* A block of its own with these bytes. */
static uint8_t *copy(const void *bytes, size_t size)
{
    uint8_t *got = block(size);
    memcpy(got, bytes, size);
    return got;
}

/* The text of a step: the rest of the word, or a file's bytes. */
static size_t take(const char *word)
{
    if (!file) {
        text = copy(word, strlen(word));
        return strlen(word);
    }
    static uint8_t bytes[MOST];
    FILE *from = fopen(file, "rb");
    size_t size = from ? fread(bytes, 1, sizeof bytes, from) : 0;
    if (from)
        fclose(from);
    file = NULL;
    text = copy(bytes, size);
    return size;
}

/* What a step says after its name, if it has this one. */
static const char *said_by(const char *word, const char *name)
{
    size_t size = strlen(name);
    return strncmp(word, name, size) || word[size] != '=' ? NULL : word + size + 1;
}

/* hurd_can, called as the other functions are. */
static hurd_said could(uint32_t of, const uint8_t *bytes, size_t size, const uint8_t *names, size_t names_size, uint8_t *to, size_t most)
{
    return hurd_can(of, bytes, size, names, names_size, every, to, most);
}

/* Makes a step of a whole text, if the word is one. */
static int step_of_text(const char *word)
{
    typedef hurd_said function(uint32_t, const uint8_t *, size_t, const uint8_t *, size_t, uint8_t *, size_t);
    static const struct { const char *name; function *asks; } all[] = {
        { "run", NULL }, { "learn", hurd_learn }, { "see", hurd_see }, { "can", could }, { "draw", hurd_draw }
    };
    for (size_t i = 0; i < sizeof all / sizeof *all; i++) {
        const char *rest = said_by(word, all[i].name);
        if (!rest)
            continue;
        size_t size = take(rest);
        named = copy(who, strlen(who));
        fill();
        say(all[i].asks ? all[i].asks(kind, text, size, named, strlen(who), out, room) : hurd_run(kind, text, size, out, room));
        return 1;
    }
    return 0;
}

/* The numbers of the next calls, with commas between them; those that are not given are 0. */
static void number(const char *word)
{
    char *rest = (char *)word;
    long long all[14] = { 0 };
    for (size_t i = 0; i < sizeof all / sizeof *all && *rest; i++, rest += *rest == ',')
        all[i] = strtoll(rest, &rest, 10);
    request = (hurd_request){ all[0], all[1], all[2], all[3], all[4], all[5], all[6], all[7], all[8], all[9], all[10], all[11], all[12], all[13] };
}

/* Prints a reply's numbers. */
static void say_reply(hurd_reply is)
{
    if (is.status == HURD_MEMORY && !goes_on)
        lack();
    printf("[status %u which %u error %u number %llu length %zu told %zu]\n", (unsigned)is.status, (unsigned)is.reply.which, (unsigned)is.reply.error,
           (unsigned long long)is.reply.number, is.length, is.told);
    give_up();
}

/* Opens a path, if the word is such a step. */
static int step_of_path(const char *word)
{
    const char *path = said_by(word, "open");
    if (!path)
        return 0;
    size_t size = take(path);
    say_reply(hurd_open(&world, &request, text, size));
    return 1;
}

/* Makes one call of these bytes, or gives its line, if the word is such a step. */
static int step_of_call(const char *word)
{
    const char *rest = said_by(word, "call"), *line = said_by(word, "line");
    if (!rest && !line)
        return 0;
    size_t size = take(rest ? rest : line);
    for (size_t i = 0; i < size; i++)
        text[i] = text[i] == '|' ? 0 : text[i];
    fill();
    if (line) {
        say(hurd_line(&request, text, size, out, room));
        return 1;
    }
    hurd_reply is = hurd_call(&world, &request, text, size, out, room);
    if (is.status != HURD_MEMORY || goes_on)
        show(is.length < room ? is.length : room);
    say_reply(is);
    return 1;
}

/* Makes a step of a world that is kept, if the word is one. */
static int step_of_world(const char *word)
{
    const char *rest;
    if (!strcmp(word, "end"))
        hurd_end(&world);
    else if ((rest = said_by(word, "told"))) {
        fill();
        size_t count = hurd_told(&world, strtoul(rest, NULL, 10), out, room);
        show(count);
        printf("[%zu]\n", count);
        give_up();
    } else if ((rest = said_by(word, "begin"))) {
        size_t size = take(rest);
        fill();
        say(hurd_begin(&world, text, size, out, room));
    } else if ((rest = said_by(word, "make"))) {
        size_t size = take(rest);
        fill();
        say(hurd_make(&world, text, size, out, room));
    } else if ((rest = said_by(word, "watch"))) {
        size_t size = take(rest);
        say_end(hurd_watch(&world, text, size));
    } else
        return 0;
    return 1;
}

/* Makes a step. */
static void step(const char *word)
{
    const char *rest;
    if (!strcmp(word, "on"))
        goes_on = 1;
    else if ((rest = said_by(word, "room")))
        room = strtoul(rest, NULL, 10);
    else if ((rest = said_by(word, "kind")))
        kind = strtoul(rest, NULL, 10);
    else if ((rest = said_by(word, "numbers")))
        number(rest);
    else if ((rest = said_by(word, "who")))
        who = rest;
    else if ((rest = said_by(word, "every")))
        every = strtoul(rest, NULL, 10);
    else if ((rest = said_by(word, "file")))
        file = rest;
    else if (!step_of_world(word) && !step_of_path(word) && !step_of_call(word) && !step_of_text(word)) {
        printf("no such step: %s\n", word);
        end(3);
    }
}

int main(int count, char **words)
{
    setvbuf(stdout, NULL, _IONBF, 0);
    for (int i = 1; i < count; i++)
        step(words[i]);
    end(0);
}
