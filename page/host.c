/* What the program asks of its system, in a web page or another host of WebAssembly. The host gives standard input, the arguments and the files beforehand.
   Standard output and standard error are kept, each by itself. There is nothing else. */
typedef unsigned long long u64;
typedef long long i64;
typedef unsigned long address;
typedef unsigned char u8;
typedef unsigned __int128 u128;

enum { ENOENT = 2, EBADF = 9, EISDIR = 21, EMFILE = 24, ENOSPC = 28, ESPIPE = 29 };
enum { MOST_WORDS = 64, MOST_FILES = 64, FIRST_FILE = 3, FIRST_ERRORS = 4096 };

struct text {
    const u8 *bytes;
    u64 length;
};

/* a file, and why it can't be read, if it can't */
struct file {
    struct text name, text;
    int error;
};

/* what is left to read of a file that is open */
struct reading {
    struct text left;
    int error, is_open;
};

/* what is written to a descriptor */
struct kept {
    u8 *bytes;
    u64 length, room;
};

extern int hurd_main(void);
extern u64 room(u64);
extern void give(void *);

static struct text in;
static struct text words[MOST_WORDS] = {{(const u8 *)"hurd", 4}}; /* the program's name first */
static u64 word_count = 1;
static struct file files[MOST_FILES];
static struct reading readings[MOST_FILES];
static u64 file_count;
static u8 first_errors[FIRST_ERRORS]; /* so that the program can report that memory ran out */
static struct kept out, err = {first_errors, 0, FIRST_ERRORS};
static int last_error;

#define EXPORT(name) __attribute__((export_name(name)))

EXPORT("input") void input(u64 text, u64 length) {
    in = (struct text){(const u8 *)(address)text, length};
}

/* adds an argument */
EXPORT("word") void word(u64 text, u64 length) {
    if (word_count == MOST_WORDS) __builtin_trap();
    words[word_count++] = (struct text){(const u8 *)(address)text, length};
}

/* adds a file: its name and what is in it; or, by an error number, why it can't be opened: a folder (EISDIR) can be, and can't be read */
EXPORT("file") void file(u64 name, u64 name_length, u64 text, u64 length, int error) {
    if (file_count == MOST_FILES) __builtin_trap();
    files[file_count++] = (struct file){{(const u8 *)(address)name, name_length}, {(const u8 *)(address)text, length}, error};
}

EXPORT("run") int run(void) { return hurd_main(); }
EXPORT("output") u64 output(void) { return (address)out.bytes; }
EXPORT("output_length") u64 output_length(void) { return out.length; }
EXPORT("errors") u64 errors(void) { return (address)err.bytes; }
EXPORT("errors_length") u64 errors_length(void) { return err.length; }

static i64 fails(int error) {
    last_error = error;
    return -1;
}

/* takes at most so many bytes of what is left */
static i64 take(struct text *left, u8 *to, u64 most) {
    u64 count = most < left->length ? most : left->length;
    if (count) __builtin_memcpy(to, left->bytes, count);
    left->bytes += count;
    left->length -= count;
    return (i64)count;
}

static struct reading *reading_of(int from) {
    return from < FIRST_FILE || from >= FIRST_FILE + MOST_FILES || !readings[from - FIRST_FILE].is_open ? 0 : &readings[from - FIRST_FILE];
}

i64 read(int from, u8 *to, u64 most) {
    if (from == 0) return take(&in, to, most);
    struct reading *reading = reading_of(from);
    if (!reading) return fails(EBADF);
    return reading->error ? fails(reading->error) : take(&reading->left, to, most);
}

static int is_named(const struct file *file, const u8 *path) {
    for (u64 i = 0; i < file->name.length; i++)
        if (!path[i] || path[i] != file->name.bytes[i]) return 0;
    return !path[file->name.length];
}

/* opens a file for reading; the program opens none otherwise */
int open(const u8 *path, int flags, ...) {
    u64 at = 0;
    while (at < file_count && !is_named(&files[at], path)) at++;
    if (at == file_count) return (int)fails(ENOENT);
    if (files[at].error && files[at].error != EISDIR) return (int)fails(files[at].error);
    for (int i = 0; i < MOST_FILES; i++) {
        if (readings[i].is_open) continue;
        readings[i] = (struct reading){files[at].text, files[at].error, 1};
        return FIRST_FILE + i;
    }
    return (int)fails(EMFILE);
}

int close(int from) {
    struct reading *reading = reading_of(from);
    if (!reading) return (int)fails(EBADF);
    reading->is_open = 0;
    return 0;
}

int isatty(int from) { return 0; }

/* whether `more` bytes can be added */
static int keeps(struct kept *kept, u64 more) {
    if (kept->room - kept->length >= more) return 1;
    u64 wanted = 2 * kept->room + more + 4096;
    u8 *place = (u8 *)(address)room(wanted);
    if (!place) return 0;
    if (kept->length) __builtin_memcpy(place, kept->bytes, kept->length);
    if (kept->bytes && kept->bytes != first_errors) give(kept->bytes);
    kept->bytes = place;
    kept->room = wanted;
    return 1;
}

i64 write(int to, const u8 *from, u64 count) {
    if (to != 1 && to != 2) return fails(EBADF);
    struct kept *kept = to == 1 ? &out : &err;
    if (!keeps(kept, count)) return fails(ENOSPC);
    if (count) __builtin_memcpy(kept->bytes + kept->length, from, count);
    kept->length += count;
    return (i64)count;
}

i64 __write(int to, const u8 *from, u64 count) { return write(to, from, count); }
i64 lseek(int file, i64 place, int whence) { return fails(ESPIPE); }
int rattle_errno(void) { return last_error; }
void rattle_set_errno(int error) { last_error = error; }
u64 rattle_arg_count(void) { return word_count; }

/* copies an argument as far as there is room, and returns its length: -1 if there is no such argument, -2 if it does not fit */
i64 rattle_arg(u64 which, u8 *to, u64 most) {
    if (which >= word_count) return -1;
    u64 length = words[which].length, count = length < most ? length : most;
    if (count) __builtin_memcpy(to, words[which].bytes, count);
    return length <= most ? (i64)length : -2;
}

/* at its start, a program asks which processor it runs on; no x86-64 instruction is left here */
struct features {
    unsigned bits[8];
};
static const struct features all = {{-1, -1, -1, -1, -1, -1, -1, -1}};
const struct features *__x86_get_cpuid_feature_leaf(unsigned leaf) { return &all; }
u64 __sysv_signal(int number, u64 handler) { return 0; }

/* 128-bit numbers: WebAssembly has no instructions for them */

u128 __multi3(u128 a, u128 b) {
    u64 x = (u64)a, y = (u64)b, mask = 0xffffffff;
    u64 p = (x & mask) * (y & mask), q = (x >> 32) * (y & mask), r = (x & mask) * (y >> 32), s = (x >> 32) * (y >> 32);
    u64 middle = (p >> 32) + (q & mask) + (r & mask);
    u64 low = (p & mask) | middle << 32, high = s + (q >> 32) + (r >> 32) + (middle >> 32);
    high += x * (u64)(b >> 64) + (u64)(a >> 64) * y;
    return (u128)high << 64 | low;
}

u128 __ashlti3(u128 a, int by) {
    u64 low = (u64)a, high = (u64)(a >> 64);
    if (by >= 64) {
        high = low << (by - 64);
        low = 0;
    } else if (by) {
        high = high << by | low >> (64 - by);
        low <<= by;
    }
    return (u128)high << 64 | low;
}

u128 __lshrti3(u128 a, int by) {
    u64 low = (u64)a, high = (u64)(a >> 64);
    if (by >= 64) {
        low = high >> (by - 64);
        high = 0;
    } else if (by) {
        low = low >> by | high << (64 - by);
        high >>= by;
    }
    return (u128)high << 64 | low;
}
