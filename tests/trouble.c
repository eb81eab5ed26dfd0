/* Reads and writes below the types. Where READS is set, each read of standard input gives one byte at most, after an interrupted read, and once
   so many were made all fail. Where WRITES is set, each write to standard output, or to the descriptor TO, takes one byte, after an interrupted
   write, until so many bytes were written. The next write is then as TROUBLE says: `once` it fails, `nothing` it takes nothing, and in both cases later ones go
   well; `always` it fails, and all later ones too. */
extern long syscall(long, ...);
extern int *__errno_location(void);
extern char *getenv(const char *);

enum { INTERRUPTED = 4, FAILED = 5 };

/* the calls of the kernel */
enum { READ = 0, WRITE = 1 };

/* what stands in a variable that is not set, and in one that was not looked at yet */
enum { UNSET = -1, UNREAD = -2 };

/* The number that a variable gives. */
static long number(const char *name)
{
    const char *digit = getenv(name);
    if (!digit || !*digit)
        return UNSET;
    long number = 0;
    for (; *digit; digit++)
        number = number * 10 + (*digit - '0');
    return number;
}

static long fails(int error)
{
    *__errno_location() = error;
    return -1;
}

long read(int file, void *bytes, unsigned long room)
{
    static long left = UNREAD;
    static int interrupted;
    if (left == UNREAD)
        left = number("READS");
    if (file != 0 || left == UNSET)
        return syscall(READ, file, bytes, room);
    interrupted = !interrupted;
    if (interrupted)
        return fails(INTERRUPTED);
    if (left == 0)
        return fails(FAILED);
    left--;
    return syscall(READ, file, bytes, room > 0 ? 1L : 0L);
}

long write(int file, const void *bytes, unsigned long count)
{
    static long left = UNREAD, to;
    static int interrupted, is_over;
    if (left == UNREAD) {
        left = number("WRITES");
        to = number("TO");
    }
    if (file != (to == UNSET ? 1 : to) || left == UNSET)
        return syscall(WRITE, file, bytes, count);
    interrupted = !interrupted;
    if (interrupted)
        return fails(INTERRUPTED);
    if (left > 0 || is_over) {
        left -= left > 0;
        return syscall(WRITE, file, bytes, count > 0 ? 1L : 0L);
    }
    char trouble = *getenv("TROUBLE");
    is_over = trouble != 'a';
    return trouble == 'n' ? 0 : fails(FAILED);
}
