/* What tmpfs.c and plain.c share: the names of the files, and how often and how long each kind of work is done. */
#include <stdio.h>
#include <stdlib.h>
#include <string.h>
#include <time.h>

enum { directory_size = 1000, most_files = 10000000 };

static const char contents[] = "contents";

/* A kind of work. */
struct work {
    const char *name;
    void (*once)(long file);
};

static void path_of(char *path, char letter, long file) {
    sprintf(path, "d%ld/%c%ld", file / directory_size, letter, file);
}

static long directories(long files) {
    return (files + directory_size - 1) / directory_size;
}

/* The step from one file that the work is done on to the next: at most 10,000 are taken. */
static long sparse(long files) {
    long stride = 1;
    while (files > 10000 * stride)
        stride *= 10;
    return stride;
}

static long long now(void) {
    struct timespec t;
    clock_gettime(CLOCK_MONOTONIC, &t);
    return t.tv_sec * 1000000000LL + t.tv_nsec;
}

static void measure(struct work work, long files, long stride) {
    long times = 0;
    long long start = now();
    for (long i = 0; i < files; i += stride) {
        work.once(i);
        times++;
    }
    printf("%s: %ld done, %lld ns each\n", work.name, times, (now() - start) / times);
}

/* What is done with one file: each program has its own way. */
static void create(long file);
static void look_up_and_read(long file);
static void stat_one(long file);
static void rename_one(long file);
static void unlink_one(long file);

/* Makes so many files, and does the rest with some of them. */
static void measure_all(long files) {
    const struct work sparsely[] = {
        {"look up and read", look_up_and_read},
        {"stat", stat_one},
        {"rename", rename_one},
        {"unlink", unlink_one},
    };
    measure((struct work){"create", create}, files, 1);
    for (size_t i = 0; i < sizeof sparsely / sizeof *sparsely; i++)
        measure(sparsely[i], files, sparse(files));
}

/* The number that digits name, or 0 if there may not be so many files. */
static long number(const char *text) {
    if (strlen(text) > 8 || strspn(text, "0123456789") != strlen(text))
        return 0;
    long files = atol(text);
    return files > most_files ? 0 : files;
}
