/* An allocator below the types that counts what is live: what was asked for and not given back. With FAIL=N the request of that number and all later ones are
   refused. With LOSE=N there is a leak at the request of that number, which has to be seen.

   At its end the program tells through the descriptor 9 how many are live, and how many requests it made. What the C
   library asks for itself, as the buffer of an output, comes through here too. */
typedef unsigned long size;
extern void *__libc_malloc(size);
extern void *__libc_calloc(size, size);
extern void *__libc_realloc(void *, size);
extern void __libc_free(void *);
extern char *getenv(const char *);
extern int atoi(const char *);
extern int dprintf(int, const char *, ...);

/* where all is told */
enum { TOLD = 9 };

static long live, made, lost_at, fails_at;

/* whether these numbers were read */
static int is_begun;

/* what is told may want memory of its own, which is not counted */
static int is_telling;

static long number(const char *name)
{
    const char *said = getenv(name);
    return said ? atoi(said) : 0;
}

/* A request is made: whether it is refused. The leak is one of a byte, beside it. */
static int is_refused(void)
{
    if (is_telling)
        return 0;
    if (!is_begun) {
        is_begun = 1;
        lost_at = number("LOSE");
        fails_at = number("FAIL");
    }
    made++;
    if (made == lost_at && __libc_malloc(1))
        live++;
    return fails_at > 0 && made >= fails_at;
}

/* What was got is live from now on. */
static void *counted(void *got)
{
    if (got && !is_telling)
        live++;
    return got;
}

void *malloc(size bytes)
{
    return is_refused() ? 0 : counted(__libc_malloc(bytes));
}

void *calloc(size many, size bytes)
{
    return is_refused() ? 0 : counted(__libc_calloc(many, bytes));
}

/* What grows was live before, and stays so. */
void *realloc(void *old, size bytes)
{
    if (!old)
        return malloc(bytes);
    return is_refused() ? 0 : __libc_realloc(old, bytes);
}

void free(void *old)
{
    if (old && !is_telling)
        live--;
    __libc_free(old);
}

__attribute__((destructor)) static void tell(void)
{
    is_telling = 1;
    dprintf(TOLD, "live: %ld\nrequests for memory: %ld\n", live, made);
}
