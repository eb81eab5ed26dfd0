/* Does on a folder of the kernel what `hurd_trials bench` does on its tree, and prints rows of the same form.

   tmpfs NODES FOLDER: FOLDER is there, and empty. What this makes in it, it takes away again. Status 1 with one line where a
   call fails, and 2 for other arguments. */
#include <errno.h>
#include <fcntl.h>
#include <stdio.h>
#include <stdlib.h>
#include <string.h>
#include <sys/stat.h>
#include <unistd.h>

#include "work.h"

static void must(int holds, const char *what) {
    if (!holds) {
        printf("%s: %s\n", what, strerror(errno));
        exit(1);
    }
}

static void create(long file) {
    char path[64];
    path_of(path, 'f', file);
    int port = open(path, O_WRONLY | O_CREAT, 0644);
    must(port >= 0, "create");
    must(write(port, contents, 8) == 8, "write");
    must(close(port) == 0, "close");
}

static void look_up_and_read(long file) {
    char path[64], bytes[100];
    path_of(path, 'f', file);
    int port = open(path, O_RDONLY);
    must(port >= 0, "open");
    must(read(port, bytes, sizeof bytes) == 8, "read");
    must(memcmp(bytes, contents, 8) == 0, "what was read");
    must(close(port) == 0, "close");
}

static void stat_one(long file) {
    char path[64];
    struct stat told;
    path_of(path, 'f', file);
    int port = open(path, O_RDONLY);
    must(port >= 0, "open");
    must(fstat(port, &told) == 0, "fstat");
    must(close(port) == 0, "close");
}

static int open_directory(long file) {
    char path[64];
    sprintf(path, "d%ld", file / directory_size);
    int port = open(path, O_RDONLY | O_DIRECTORY);
    must(port >= 0, "open");
    return port;
}

static void rename_one(long file) {
    char name[64], new_name[64];
    sprintf(name, "f%ld", file);
    sprintf(new_name, "g%ld", file);
    int port = open_directory(file);
    must(renameat(port, name, port, new_name) == 0, "rename");
    must(close(port) == 0, "close");
}

static void unlink_one(long file) {
    char name[64];
    sprintf(name, "g%ld", file);
    int port = open_directory(file);
    must(unlinkat(port, name, 0) == 0, "unlink");
    must(close(port) == 0, "close");
}

static void make_directories(long files) {
    char path[64];
    for (long i = 0; i < directories(files); i++) {
        sprintf(path, "d%ld", i);
        must(mkdir(path, 0777) == 0, "mkdir");
    }
}

static void remove_files(long files) {
    char path[64];
    for (long i = 0; i < files; i++) {
        path_of(path, 'f', i);
        unlink(path);
    }
}

static void remove_directories(long files) {
    char path[64];
    for (long i = 0; i < directories(files); i++) {
        sprintf(path, "d%ld", i);
        must(rmdir(path) == 0, "rmdir");
    }
}

int main(int count, char **arguments) {
    long files = count == 3 ? number(arguments[1]) : 0;
    if (files == 0) {
        fprintf(stderr, "usage: tmpfs NODES FOLDER\n");
        return 2;
    }
    must(chdir(arguments[2]) == 0, arguments[2]);
    make_directories(files);
    measure_all(files);
    remove_files(files);
    remove_directories(files);
    return 0;
}
