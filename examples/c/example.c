/* A first program over the library: root writes a notice, alice reads it and may not write it. She reads it by text, and then by numbers and bytes. */
#include "hurd.h"
#include <stdio.h>
#include <stdlib.h>
#include <string.h>

/* Room for what a text prints; further calls get the rest. */
static uint8_t out[64];

/* Prints what the library gave back, and the status if it is not HURD_DONE. */
static void tell(hurd_world *world, hurd_said said)
{
    size_t from = 0, count = said.length < sizeof out ? said.length : sizeof out;
    while (count) {
        fwrite(out, 1, count, stdout);
        from += count;
        count = hurd_told(world, from, out, sizeof out);
    }
    if (said.status == HURD_MEMORY) {
        fputs("hurd: out of memory\n", stderr);
        hurd_end(world);
        exit(2);
    }
    if (said.status != HURD_DONE)
        printf("status %u, error %u, line %llu\n", (unsigned)said.status, (unsigned)said.error, (unsigned long long)said.line);
}

/* Makes the calls of a text, and prints their replies. */
static void make(hurd_world *world, const char *calls)
{
    tell(world, hurd_make(world, (const uint8_t *)calls, strlen(calls), out, sizeof out));
}

/* Makes a call of alice's by numbers, and prints its line and the bytes of its reply. */
static void call(hurd_world *world, hurd_request request)
{
    request.task = 1;
    hurd_said line = hurd_line(&request, (const uint8_t *)"", 0, out, sizeof out);
    fwrite(out, 1, line.length < sizeof out ? line.length : sizeof out, stdout);
    hurd_reply reply = hurd_call(world, &request, (const uint8_t *)"", 0, out, sizeof out);
    if (line.status == HURD_MEMORY || reply.status == HURD_MEMORY) {
        fputs("hurd: out of memory\n", stderr);
        hurd_end(world);
        exit(2);
    }
    printf(": reply %u, error %u, %zu bytes: %.*s", (unsigned)reply.reply.which, (unsigned)reply.reply.error, reply.length, (int)reply.length, (const char *)out);
}

int main(void)
{
    setvbuf(stdout, NULL, _IONBF, 0);
    hurd_world world = HURD_NO_WORLD;
    const char *tasks = "task 0 0\ntask 1000 1000\n";
    tell(&world, hurd_begin(&world, (const uint8_t *)tasks, strlen(tasks), out, sizeof out));
    make(&world, "0 dir_lookup 1 =motd WRITE,CREATE 644");
    make(&world, "0 io_write 3 =Welcome\\n -1\n1 dir_lookup 1 =motd READ 0\n1 io_read 3 100 0");
    call(&world, (hurd_request){ .call = HURD_IO_READ, .port = 3, .amount = sizeof out, .offset = 0 });
    make(&world, "1 dir_lookup 1 =motd WRITE 0");
    make(&world, "nonsense");
    hurd_end(&world);
    make(&world, "1 io_stat 3");
    return 0;
}
