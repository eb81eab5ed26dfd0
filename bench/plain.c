/* Does in plain C what `hurd_trials bench` does on its tree, and prints rows of the same form: about the least that such work takes.

   plain NODES. Status 1 with one line where a call is refused, and 2 for other arguments.

   It has nodes with owners, modes and links, directories as maps by name, a task with ids, a table of ports by number, and opens with
   a cursor, which count who holds them. What a path leads through is tested against the ids of the port.
   It leaves out servers and what is asked because of them, other tasks, rights that are sent, `..` and ways, links between names, the order of
   names in a directory, bounds on what is kept, which error a refusal is, and what is to be done where memory is refused. */
#include <stdint.h>
#include <stdio.h>
#include <stdlib.h>
#include <string.h>

#include "work.h"

enum { longest_name = 255, most_ids = 32 };

enum kind { DIRECTORY, PLAIN_FILE };

/* What an open allows, as bits of a mode. */
enum { EXEC = 1, WRITE = 2, READ = 4 };

/* What a look-up asks for besides. */
enum { CREATE = 8, ONLY_DIRECTORY = 16 };

/* The ids of a task or of a port. */
struct ids {
    uint32_t uids[most_ids], gids[most_ids];
    int uid_count, gid_count;
};

struct node;

/* A name in a directory; none where the name is null. */
struct entry {
    char *name;
    uint32_t hash;
    struct node *node;
};

/* A file with its bytes, or a directory with its map, whose slots are a power of two. */
struct node {
    uint64_t id;
    enum kind kind;
    uint32_t owner, group, mode, links, holders;
    struct node *parent;
    uint8_t *bytes;
    size_t length, room;
    struct entry *entries;
    size_t count, slots;
};

/* How a node was opened, and where it is read and written next. */
struct open {
    uint64_t cursor;
    unsigned modes, holders;
};

/* A right of a task to use a node. */
struct port {
    uint64_t number;
    struct node *node;
    struct open *open;
    struct ids ids;
};

/* A task, with its ports by rising numbers. */
struct task {
    struct ids ids;
    struct port *ports;
    size_t length, room;
    uint64_t next;
};

/* What `io_stat` tells. */
struct told {
    uint64_t id, size;
    enum kind kind;
    uint32_t owner, group, mode, links;
};

static struct task operator = {.ids = {.uids = {0}, .gids = {0}, .uid_count = 1, .gid_count = 1}, .next = 1};
static struct task user = {.ids = {.uids = {1000}, .gids = {1000}, .uid_count = 1, .gid_count = 1}, .next = 1};

/* Each task's port on the root of the tree. */
static const uint64_t here = 1;

static uint64_t next_id;

static void must(int holds, const char *what) {
    if (!holds) {
        printf("%s: refused\n", what);
        exit(1);
    }
}

/* A block from one of the allocator's functions, which is there. */
static void *got(void *block) {
    must(block != NULL, "memory");
    return block;
}

static struct node *new_node(enum kind kind, uint32_t owner, uint32_t group, uint32_t mode) {
    struct node *node = got(calloc(1, sizeof *node));
    node->id = next_id++;
    node->kind = kind;
    node->owner = owner;
    node->group = group;
    node->mode = mode;
    return node;
}

/* A node goes where no name and no port holds it. */
static void drop_unheld(struct node *node) {
    if (node->links == 0 && node->holders == 0) {
        free(node->bytes);
        free(node);
    }
}

static uint32_t hash_of(const char *name, size_t length) {
    uint32_t hash = 2166136261u;
    for (size_t i = 0; i < length; i++)
        hash = (hash ^ (uint8_t)name[i]) * 16777619u;
    return hash;
}

static int is_named(const struct entry *entry, const char *name, size_t length, uint32_t hash) {
    return entry->hash == hash && strncmp(entry->name, name, length) == 0 && entry->name[length] == 0;
}

/* The place of a name in a map, or the free one where it is to stand. */
static size_t place_of(const struct entry *entries, size_t slots, const char *name, size_t length, uint32_t hash) {
    size_t i = hash & (slots - 1);
    while (entries[i].name && !is_named(&entries[i], name, length, hash))
        i = (i + 1) & (slots - 1);
    return i;
}

/* The node of a name, or null. */
static struct node *step(const struct node *directory, const char *name, size_t length) {
    if (directory->slots == 0)
        return NULL;
    return directory->entries[place_of(directory->entries, directory->slots, name, length, hash_of(name, length))].node;
}

/* Doubles the slots of a directory. */
static void grow(struct node *directory) {
    size_t slots = directory->slots ? 2 * directory->slots : 8;
    struct entry *entries = got(calloc(slots, sizeof *entries));
    for (size_t i = 0; i < directory->slots; i++) {
        struct entry entry = directory->entries[i];
        if (entry.name)
            entries[place_of(entries, slots, entry.name, strlen(entry.name), entry.hash)] = entry;
    }
    free(directory->entries);
    directory->entries = entries;
    directory->slots = slots;
}

/* Enters a node under a name that isn't there. */
static void enter(struct node *directory, const char *name, size_t length, struct node *node) {
    if (4 * (directory->count + 1) > 3 * directory->slots)
        grow(directory);
    uint32_t hash = hash_of(name, length);
    size_t i = place_of(directory->entries, directory->slots, name, length, hash);
    directory->entries[i] = (struct entry){got(strndup(name, length)), hash, node};
    directory->count++;
    node->parent = directory;
    node->links++;
}

/* Moves names into the free place before them, so that each is still found from where its hash leads. */
static void close_gap(struct node *directory, size_t gap) {
    struct entry *entries = directory->entries;
    size_t last = directory->slots - 1;
    for (size_t i = (gap + 1) & last; entries[i].name; i = (i + 1) & last) {
        size_t first = entries[i].hash & last;
        if (((i - first) & last) >= ((i - gap) & last)) {
            entries[gap] = entries[i];
            gap = i;
        }
    }
    entries[gap] = (struct entry){0};
}

/* Takes a name out of a directory; its node, or null. */
static struct node *take(struct node *directory, const char *name) {
    size_t length = strlen(name);
    if (directory->slots == 0)
        return NULL;
    size_t i = place_of(directory->entries, directory->slots, name, length, hash_of(name, length));
    struct node *node = directory->entries[i].node;
    if (!node)
        return NULL;
    free(directory->entries[i].name);
    close_gap(directory, i);
    directory->count--;
    node->links--;
    return node;
}

static int has(const uint32_t *ids, int count, uint32_t id) {
    for (int i = 0; i < count; i++)
        if (ids[i] == id)
            return 1;
    return 0;
}

/* Whether ids may use a node in these ways. */
static int may(const struct ids *ids, const struct node *node, unsigned modes) {
    if (has(ids->uids, ids->uid_count, 0))
        return 1;
    if (has(ids->uids, ids->uid_count, node->owner))
        return (node->mode >> 6 & modes) == modes;
    if (has(ids->gids, ids->gid_count, node->group))
        return (node->mode >> 3 & modes) == modes;
    return (node->mode & modes) == modes;
}

/* A task's port of this number, or null. */
static struct port *port_of(struct task *task, uint64_t number) {
    size_t low = 0, high = task->length;
    while (low < high) {
        size_t middle = (low + high) / 2;
        if (task->ports[middle].number < number)
            low = middle + 1;
        else
            high = middle;
    }
    return low < task->length && task->ports[low].number == number ? &task->ports[low] : NULL;
}

/* Gives a task a port on a node, with an open of its own; its number. */
static uint64_t new_port(struct task *task, struct node *node, const struct ids *ids, unsigned modes) {
    struct open *open = got(malloc(sizeof *open));
    *open = (struct open){.modes = modes, .holders = 1};
    if (task->length == task->room) {
        task->room = task->room ? 2 * task->room : 8;
        task->ports = got(realloc(task->ports, task->room * sizeof *task->ports));
    }
    node->holders++;
    task->ports[task->length++] = (struct port){task->next, node, open, *ids};
    return task->next++;
}

/* The file that a last name asks for where the directory hasn't it, or null where it may not be made. */
static struct node *make(struct node *directory, const struct ids *ids, const char *name, unsigned flags) {
    if (!(flags & CREATE) || strchr(name, '/') || !may(ids, directory, WRITE))
        return NULL;
    struct node *node = new_node(PLAIN_FILE, ids->uids[0], directory->group, 0644);
    enter(directory, name, strlen(name), node);
    return node;
}

/* Opens a path from a port; the new port, or 0 where that is refused. */
static uint64_t dir_lookup(struct task *task, uint64_t from, const char *path, unsigned flags) {
    struct port *port = port_of(task, from);
    if (!port)
        return 0;
    struct ids ids = port->ids;
    struct node *node = port->node;
    while (*path) {
        size_t length = strcspn(path, "/");
        if (node->kind != DIRECTORY || !may(&ids, node, EXEC) || length > longest_name)
            return 0;
        struct node *next = step(node, path, length);
        node = next ? next : make(node, &ids, path, flags);
        if (!node)
            return 0;
        path += length;
        path += *path == '/';
    }
    unsigned modes = flags & (READ | WRITE | EXEC);
    if (!may(&ids, node, modes) || (flags & ONLY_DIRECTORY && node->kind != DIRECTORY))
        return 0;
    return new_port(task, node, &ids, modes);
}

static int port_deallocate(struct task *task, uint64_t number) {
    struct port *port = port_of(task, number);
    if (!port)
        return 0;
    struct node *node = port->node;
    if (--port->open->holders == 0)
        free(port->open);
    memmove(port, port + 1, (size_t)((char *)(task->ports + task->length) - (char *)(port + 1)));
    task->length--;
    node->holders--;
    drop_unheld(node);
    return 1;
}

/* Writes at the cursor; how many bytes, or -1. */
static long io_write(struct task *task, uint64_t number, const void *bytes, size_t length) {
    struct port *port = port_of(task, number);
    if (!port || !(port->open->modes & WRITE))
        return -1;
    struct node *node = port->node;
    size_t end = port->open->cursor + length;
    if (end > node->room) {
        node->bytes = got(realloc(node->bytes, end));
        node->room = end;
    }
    memcpy(node->bytes + port->open->cursor, bytes, length);
    port->open->cursor = end;
    if (end > node->length)
        node->length = end;
    return (long)length;
}

/* Reads at the cursor into a new block, which is given to the caller; how many bytes, or -1. */
static long io_read(struct task *task, uint64_t number, size_t amount, uint8_t **bytes) {
    struct port *port = port_of(task, number);
    if (!port || !(port->open->modes & READ))
        return -1;
    const struct node *node = port->node;
    size_t left = node->length > port->open->cursor ? node->length - port->open->cursor : 0;
    size_t length = amount < left ? amount : left;
    *bytes = got(malloc(length + 1));
    memcpy(*bytes, node->bytes + port->open->cursor, length);
    port->open->cursor += length;
    return (long)length;
}

static int io_stat(struct task *task, uint64_t number, struct told *told) {
    struct port *port = port_of(task, number);
    if (!port)
        return 0;
    const struct node *node = port->node;
    *told = (struct told){node->id, node->length, node->kind, node->owner, node->group, node->mode, node->links};
    return 1;
}

/* The directory of a port whose names its ids may change, or null. */
static struct node *changeable(struct task *task, uint64_t number) {
    struct port *port = port_of(task, number);
    if (!port || port->node->kind != DIRECTORY || !may(&port->ids, port->node, WRITE | EXEC))
        return NULL;
    return port->node;
}

static int dir_mkdir(struct task *task, uint64_t number, const char *name, uint32_t mode) {
    struct node *directory = changeable(task, number);
    if (!directory || step(directory, name, strlen(name)))
        return 0;
    enter(directory, name, strlen(name), new_node(DIRECTORY, task->ids.uids[0], directory->group, mode));
    return 1;
}

static int dir_unlink(struct task *task, uint64_t number, const char *name) {
    struct node *directory = changeable(task, number);
    struct node *node = directory ? take(directory, name) : NULL;
    if (!node)
        return 0;
    drop_unheld(node);
    return 1;
}

/* Gives a file another name in a directory; what had that name loses it. */
static int dir_rename(struct task *task, uint64_t from, const char *name, uint64_t to, const char *new_name) {
    struct node *source = changeable(task, from), *target = changeable(task, to);
    if (!source || !target || !step(source, name, strlen(name)))
        return 0;
    struct node *replaced = take(target, new_name);
    struct node *node = take(source, name);
    enter(target, new_name, strlen(new_name), node);
    if (replaced)
        drop_unheld(replaced);
    return 1;
}

static void create(long file) {
    char path[64];
    path_of(path, 'f', file);
    uint64_t port = dir_lookup(&user, here, path, WRITE | CREATE);
    must(port != 0, "create");
    must(io_write(&user, port, contents, 8) == 8, "write");
    must(port_deallocate(&user, port), "close");
}

static void look_up_and_read(long file) {
    char path[64];
    uint8_t *bytes;
    path_of(path, 'f', file);
    uint64_t port = dir_lookup(&user, here, path, READ);
    must(port != 0, "open");
    must(io_read(&user, port, 100, &bytes) == 8, "read");
    must(memcmp(bytes, contents, 8) == 0, "what was read");
    free(bytes);
    must(port_deallocate(&user, port), "close");
}

static void stat_one(long file) {
    char path[64];
    struct told told;
    path_of(path, 'f', file);
    uint64_t port = dir_lookup(&user, here, path, 0);
    must(port != 0, "open");
    must(io_stat(&user, port, &told) && told.size == 8, "stat");
    must(port_deallocate(&user, port), "close");
}

static uint64_t open_directory(long file) {
    char path[64];
    sprintf(path, "d%ld", file / directory_size);
    uint64_t port = dir_lookup(&user, here, path, ONLY_DIRECTORY);
    must(port != 0, "open");
    return port;
}

static void rename_one(long file) {
    char name[64], new_name[64];
    sprintf(name, "f%ld", file);
    sprintf(new_name, "g%ld", file);
    uint64_t port = open_directory(file);
    must(dir_rename(&user, port, name, port, new_name), "rename");
    must(port_deallocate(&user, port), "close");
}

static void unlink_one(long file) {
    char name[64];
    sprintf(name, "g%ld", file);
    uint64_t port = open_directory(file);
    must(dir_unlink(&user, port, name), "unlink");
    must(port_deallocate(&user, port), "close");
}

static void make_directories(long files) {
    char name[64];
    for (long i = 0; i < directories(files); i++) {
        sprintf(name, "d%ld", i);
        must(dir_mkdir(&operator, here, name, 0777), "mkdir");
    }
}

int main(int count, char **arguments) {
    long files = count == 2 ? number(arguments[1]) : 0;
    if (files == 0) {
        fprintf(stderr, "usage: plain NODES\n");
        return 2;
    }
    /* each row is written when its work ends */
    setvbuf(stdout, NULL, _IOLBF, 0);
    struct node *root = new_node(DIRECTORY, 0, 0, 0755);
    new_port(&operator, root, &operator.ids, 0);
    new_port(&user, root, &user.ids, 0);
    make_directories(files);
    measure_all(files);
    return 0;
}
