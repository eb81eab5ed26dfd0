/* An allocator below the types that refuses requests for memory. A request that is refused is refused again where a vector makes it in its place: for no
   more bytes, and with nothing freed before.

   With REFUSE=N the request of that number is refused, counted from 1, and none with 0. With REFUSE=each every request is refused in turn, each in a copy of the
   program as it stands at that request, while the program itself goes on unrefused. Each copy reads on from where the program stands in its input, a file.

   A copy should print the rest of the file WHOLE, and on standard error the rest of the file ERRORS, and end with the status ENDS. Or it should print fronts of
   both, and the line LAST behind that on standard error, and end with status 2. Before a byte is read or printed it may print FIRST in the place of LAST.

   At its end the program tells how many requests it made, and how many of the copies did otherwise. It tells that through the descriptor 9. */
typedef unsigned long size;
extern void *__libc_malloc(size);
extern void *__libc_realloc(void *, size);
extern void __libc_free(void *);
extern char *getenv(const char *);
extern int atoi(const char *);
extern int dprintf(int, const char *, ...);
extern int snprintf(char *, size, const char *, ...);
extern void _exit(int);
extern int open(const char *, int, ...);
extern int close(int);
extern int dup2(int, int);
extern long lseek(int, long, int);
extern int ftruncate(int, long);
extern int memfd_create(const char *, unsigned);
extern void *mmap(void *, size, int, int, int, long);
extern int munmap(void *, size);
extern int fork(void);
extern int waitpid(int, int *, int);
extern unsigned alarm(unsigned);
extern int strcmp(const char *, const char *);
extern size strlen(const char *);
extern int memcmp(const void *, const void *, size);

/* the words of these calls */
enum { READ_ONLY = 0, FROM_START = 0, FROM_HERE = 1, FROM_END = 2, CAN_READ = 1, SHARED = 1, PRIVATE = 2 };

/* A copy that takes longer is stopped. */
enum { MOST_SECONDS = 60 };

/* where all is told; files of the program's own have lower numbers */
enum { TOLD = 9 };

static size made, wanted, wrong;

/* how many bytes the request asked for that was refused just before; 0 if the last call was another */
static size refused;

/* what is asked for, once it is known: each request in turn, or one; in a copy, one */
static enum { UNKNOWN, EACH, ONE } mode;

/* in a copy nothing is told at the end */
static int is_copy;

/* what is told here may want memory of its own, which is never refused */
static int is_telling;

/* bytes, and how many there are */
struct text {
    const char *bytes;
    size count;
};

/* what is to be printed on standard output and on standard error, and the lines that tell of want of memory */
static struct text whole, errors, last, first;
static int status_at_end, copied_output, copied_errors;

static void fail(const char *why)
{
    dprintf(TOLD, "refuse: %s\n", why);
    _exit(99);
}

/* The bytes of an open file, which are there until they are given up. */
static struct text bytes_of(int file, int sharing)
{
    long end = lseek(file, 0, FROM_END);
    void *bytes = end > 0 ? mmap(0, end, CAN_READ, sharing, file, 0) : "";
    if (end < 0 || bytes == (void *)-1)
        fail("bytes that can't be read");
    return (struct text){bytes, end};
}

/* The bytes of the file that a variable names. */
static struct text file_of(const char *variable)
{
    int file = open(getenv(variable), READ_ONLY);
    struct text text = bytes_of(file, PRIVATE);
    close(file);
    return text;
}

static struct text line_of(const char *variable)
{
    const char *line = getenv(variable);
    return (struct text){line, strlen(line)};
}

static void begin(void)
{
    const char *said = getenv("REFUSE");
    mode = ONE;
    if (!said || strcmp(said, "each")) {
        wanted = said ? atoi(said) : 0;
        return;
    }
    mode = EACH;
    whole = file_of("WHOLE");
    errors = file_of("ERRORS");
    last = line_of("LAST");
    first = line_of("FIRST");
    status_at_end = atoi(getenv("ENDS"));
    copied_output = memfd_create("output", 0);
    copied_errors = memfd_create("errors", 0);
    if (copied_output < 0 || copied_errors < 0)
        fail("no room for an output");
}

/* Whether some bytes stand in a text at a place. */
static int are_at(struct text text, size at, const char *bytes, size count)
{
    return at + count <= text.count && !memcmp(text.bytes + at, bytes, count);
}

/* Whether some bytes are all of a text from a place on. */
static int are_rest(struct text text, size at, struct text some)
{
    return at + some.count == text.count && are_at(text, at, some.bytes, some.count);
}

/* Whether a copy did as it should that ended so, and printed this behind so many bytes on standard output, and behind so many on standard error. */
static int is_well(int status, int is_beginning, size at, struct text printed, size errors_at, struct text complained)
{
    if (status == status_at_end << 8 && are_rest(whole, at, printed) && are_rest(errors, errors_at, complained))
        return 1;
    if (status != 2 << 8 || !are_at(whole, at, printed.bytes, printed.count))
        return 0;
    if (is_beginning && !printed.count && are_rest(first, 0, complained))
        return 1;
    size front = complained.count - last.count;
    return complained.count >= last.count && are_at(errors, errors_at, complained.bytes, front) && !memcmp(complained.bytes + front, last.bytes, last.count);
}

/* Opens a file anew, at the same place: a copy reads it by itself. */
static void reopen(int file)
{
    char name[32];
    long place = lseek(file, 0, FROM_HERE);
    if (place < 0)
        return;
    snprintf(name, sizeof name, "/proc/self/fd/%d", file);
    int input = open(name, READ_ONLY);
    if (input < 0 || lseek(input, place, FROM_START) < 0 || dup2(input, file) < 0)
        fail("a copy has no input");
    close(input);
}

/* A copy of the program goes on here, with outputs of its own and at the same places of what it reads. */
static void become_copy(void)
{
    reopen(0);
    for (int file = 3; file < TOLD; file++)
        if (file != copied_output && file != copied_errors)
            reopen(file);
    if (dup2(copied_output, 1) < 0 || dup2(copied_errors, 2) < 0)
        fail("a copy has no output");
    alarm(MOST_SECONDS);
    mode = ONE;
    wanted = made;
    is_copy = 1;
}

static void give_up(struct text text)
{
    if (text.count)
        munmap((void *)text.bytes, text.count);
}

/* What the copy for this request did is looked at. */
static void look_at(int copy)
{
    int status;
    long read = lseek(0, 0, FROM_HERE), at = lseek(1, 0, FROM_HERE), errors_at = lseek(2, 0, FROM_HERE);
    if (waitpid(copy, &status, 0) != copy || at < 0 || errors_at < 0)
        fail("a copy is lost, or an output is no file");
    struct text printed = bytes_of(copied_output, SHARED), complained = bytes_of(copied_errors, SHARED);
    if (!is_well(status, read == 0 && at == 0 && errors_at == 0, at, printed, errors_at, complained)) {
        wrong++;
        is_telling = 1;
        dprintf(TOLD, "with request %lu refused: status %#x, behind %ld bytes the output\n%.*s\nand behind %ld bytes the errors\n%.*s\n", made, status, at,
            (int)printed.count, printed.bytes, errors_at, (int)complained.count, complained.bytes);
        is_telling = 0;
    }
    give_up(printed);
    give_up(complained);
}

static void empty(int file)
{
    if (ftruncate(file, 0) < 0 || lseek(file, 0, FROM_START) < 0)
        fail("no room for an output");
}

/* Begins the copy that is refused this request: whether this is that copy. */
static int is_begun_copy(void)
{
    empty(copied_output);
    empty(copied_errors);
    int copy = fork();
    if (copy < 0)
        fail("there is no copy");
    if (copy)
        look_at(copy);
    else
        become_copy();
    return !copy;
}

static int is_refused(size bytes)
{
    if (is_telling)
        return 0;
    if (mode == UNKNOWN)
        begin();
    int is_again = bytes <= refused;
    made++;
    int is_wanted = mode == EACH ? is_begun_copy() : made == wanted;
    refused = is_wanted ? bytes : 0;
    return is_wanted || is_again;
}

void *malloc(size bytes)
{
    return is_refused(bytes) ? 0 : __libc_malloc(bytes);
}

void *realloc(void *old, size bytes)
{
    return is_refused(bytes) ? 0 : __libc_realloc(old, bytes);
}

void free(void *old)
{
    refused = 0;
    __libc_free(old);
}

__attribute__((destructor)) static void tell(void)
{
    is_telling = 1;
    if (!is_copy)
        dprintf(TOLD, "requests for memory: %lu\nwrong: %lu\n", made, wrong);
}
