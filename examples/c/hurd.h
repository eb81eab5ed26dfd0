/* The tree as a library: it takes texts, and gives back as text what the program `hurd` prints of them.

   A text is a script of users' commands, as for `hurd run SCRIPT.hurd`, or a list of tasks' calls, as for `hurd run LIST.calls`. hurd_run, hurd_learn, hurd_see,
   hurd_can and hurd_draw run a whole text of either kind in a world of its own. A world that is kept takes lists, and prints the line of each call and then its reply.

   What a program must do, since nothing checks it:
   - A hurd_world starts as HURD_NO_WORLD. Only these functions write it. It isn't copied while it has a world.
   - A world is used by one call at a time, and stays on one thread.
   - A pointer to bytes is never null, not even for no bytes. What a function writes, `out` and the world, overlaps no other argument.
   - malloc, realloc and free belong to one allocator, and malloc aligns blocks as the C standard says.
   - No function is called from a signal handler, nor in the forked child of a program with threads.

   Link a program with libhurd_c.a, and with liblibc_c.a of the toolchain, which calls malloc, realloc and free. */
#ifndef HURD_H
#define HURD_H
#include <stddef.h>
#include <stdint.h>
#ifdef __cplusplus
extern "C" {
#endif

/* A world of tasks, with what its last text printed; or no world. */
typedef struct hurd_world {
    void *at;
} hurd_world;
#define HURD_NO_WORLD { 0 }

/* How a call ended. */
enum {
    HURD_DONE = 0,    /* all calls were made, and all is printed */
    HURD_BAD = 1,     /* the text is bad at `line`, and no call was made; line 0: it is too long, or hurd_make was given a task line */
    HURD_REFUSED = 2, /* the world could not be created: the refusal of number `error` */
    HURD_MEMORY = 3,  /* out of memory: some first calls may have been made and printed, and perhaps the next was made */
    HURD_NONE = 4,    /* there is no world */
    HURD_UNKNOWN = 5, /* `who` names somebody who isn't there */
    HURD_NO_KIND = 6, /* there is no kind of texts of this number */
    HURD_NO_CALL = 7  /* these numbers and bytes make no call, or have no line */
};

/* The kinds of whole texts. */
enum {
    HURD_SCRIPT = 0, /* a script of users' commands */
    HURD_CALLS = 1   /* a list of tasks' calls */
};

typedef struct hurd_said {
    uint32_t status; /* one of these */
    uint32_t error;
    uint64_t line;
    size_t length;   /* how many bytes are printed: more than were copied if there was too little room */
} hurd_said;

/* Frees the world that was there, creates one of the list's tasks, and makes the list's calls. Copies what they print, as far as there is room. If the status is not
   HURD_DONE, there is no world afterwards. */
hurd_said hurd_begin(hurd_world *world, const uint8_t *list, size_t size, uint8_t *out, size_t room);

/* Makes the calls of a text, one after another. Copies what they print, as far as there is room. The world stays usable, whatever the status. */
hurd_said hurd_make(hurd_world *world, const uint8_t *calls, size_t size, uint8_t *out, size_t room);

/* After this hurd_make also prints, after each call by others, what the tasks of `who` learn, as `hurd learn` does, but without its last line. `who` has their
   numbers, with commas between them; if it is empty, this ends. What was printed last is kept, and `length` says how much that is. If the status is not
   HURD_DONE, nothing changes. */
hurd_said hurd_watch(hurd_world *world, const uint8_t *who, size_t size);

/* Copies what the last text or opening printed, or what was learned from the last call, from the byte `from` on, as far as there is room. Returns how many bytes these are. */
size_t hurd_told(hurd_world *world, size_t from, uint8_t *out, size_t room);

/* Frees the world. */
void hurd_end(hurd_world *world);

/* The errors, by the numbers that this library has for them: they are no errno of C. */
enum {
    HURD_EPERM = 1, HURD_ENOENT = 2, HURD_EIO = 3, HURD_EBADF = 4, HURD_ENOMEM = 5, HURD_EACCES = 6, HURD_EBUSY = 7, HURD_EEXIST = 8, HURD_EXDEV = 9,
    HURD_ENOTDIR = 10, HURD_EISDIR = 11, HURD_EINVAL = 12, HURD_EFBIG = 13, HURD_EROFS = 14, HURD_EPIPE = 15, HURD_EWOULDBLOCK = 16, HURD_ELOOP = 17,
    HURD_ENAMETOOLONG = 18, HURD_ENOTEMPTY = 19, HURD_EOPNOTSUPP = 20, HURD_EDIED = 21, HURD_ENXIO = 22, HURD_ESRCH = 23, HURD_EOVERFLOW = 24,
    HURD_ENOSPC = 25
};

/* ONE CALL AS NUMBERS AND BYTES: no text is written or read on the way. */

/* The calls. */
enum {
    HURD_PORT_DEALLOCATE = 1, HURD_PORT_SEND = 2, HURD_PORT_RECEIVE = 3, HURD_AUTH_MAKEAUTH = 4, HURD_IO_READ = 5, HURD_IO_WRITE = 6,
    HURD_IO_SEEK = 7, HURD_IO_STAT = 8, HURD_IO_READABLE = 9, HURD_IO_GET_OPENMODES = 10, HURD_IO_SET_ALL_OPENMODES = 11, HURD_IO_DUPLICATE = 12,
    HURD_IO_REAUTHENTICATE = 13, HURD_IO_RESTRICT_AUTH = 14, HURD_IO_IDENTITY = 15, HURD_FILE_CHMOD = 16, HURD_FILE_CHOWN = 17,
    HURD_FILE_SET_SIZE = 18, HURD_FILE_CHECK_ACCESS = 19, HURD_FILE_SET_TRANSLATOR = 20, HURD_FILE_GET_TRANSLATOR = 21,
    HURD_FILE_GET_TRANSLATOR_CNTL = 22, HURD_FILE_GETCONTROL = 23, HURD_FSYS_STARTUP = 24, HURD_START_FAILED = 25, HURD_FSYS_GETROOT = 26,
    HURD_FSYS_GOAWAY = 27, HURD_FSYS_GET_OPTIONS = 28, HURD_FSYS_SET_OPTIONS = 29, HURD_DIR_LOOKUP = 30, HURD_DIR_READDIR = 31, HURD_DIR_MKDIR = 32,
    HURD_DIR_MKFILE = 33, HURD_DIR_RMDIR = 34, HURD_DIR_UNLINK = 35, HURD_DIR_LINK = 36, HURD_DIR_RENAME = 37
};

/* Flags of opening (READ to DIRECTORY), of setting a translator (SET, SET_EXCL, ORPHAN), and by which a server goes (FORCE, NOSYNC, NOWAIT). */
enum {
    HURD_READ = 1, HURD_WRITE = 2, HURD_EXEC = 4, HURD_APPEND = 8, HURD_CREATE = 16, HURD_EXCL = 32, HURD_NOTRANS = 64, HURD_NOLINK = 128, HURD_DIRECTORY = 256
};
enum { HURD_SET = 1, HURD_SET_EXCL = 2, HURD_ORPHAN = 4 };
enum { HURD_FORCE = 1, HURD_NOSYNC = 2, HURD_NOWAIT = 4 };

/* The numbers of a call. Those that it has no use for are not looked at. */
typedef struct hurd_request {
    uint32_t task;   /* who makes the call */
    uint32_t call;   /* one of the calls */
    uint64_t port;   /* the port that is called: of the directory, the file or the server */
    uint64_t other;  /* the other port of io_identity, the file of dir_link, the new directory of dir_rename, the directory of fsys_getroot */
    uint64_t amount; /* how many bytes to read at most; the size of file_set_size; how long the first name of dir_rename is; how many of the words of
                        file_set_translator are the passive translator's, if it brings a server too */
    int64_t offset;  /* of io_read and io_write, where -1 is the cursor, and of io_seek */
    uint32_t flags;  /* of opening; from where io_seek counts: 0 the beginning, 1 the cursor, 2 the end; of the passive translator */
    uint32_t mode;
    uint32_t owner;  /* of file_chown, as the group */
    uint32_t group;
    uint32_t to;     /* the task that port_send sends to */
    uint32_t active; /* flags of the active translator of file_set_translator */
    uint32_t goaway; /* flags by which a server goes, of file_set_translator and fsys_goaway */
    uint32_t brings; /* whether file_set_translator brings a server: 0 if it doesn't */
} hurd_request;

/* Which reply it is. */
enum {
    HURD_IS_NONE = 0,     /* there is none */
    HURD_IS_DONE = 1,
    HURD_IS_FOUND = 2,    /* a lookup is done: `number` is the port */
    HURD_IS_RETRY = 3,    /* it goes on with the name in the bytes: at the port `number`, or at the task itself (`retry`) */
    HURD_IS_START = 4,    /* the translator is to be started first whose words are in the bytes */
    HURD_IS_PORT = 5,     /* `number` is the port */
    HURD_IS_DATA = 6,     /* the bytes */
    HURD_IS_COUNT = 7,    /* `number` */
    HURD_IS_NAMES = 8,    /* `number` names */
    HURD_IS_WORDS = 9,    /* `number` words */
    HURD_IS_STAT = 10,    /* the attributes of a node */
    HURD_IS_MODES = 11,   /* `number` has the flags of opening */
    HURD_IS_SAME = 12,    /* `number` is 1 if both ports are on one node, else 0 */
    HURD_IS_REFUSED = 13, /* by the error of number `error` */
    HURD_IS_BACK = 14     /* the same of a call that brought a server, which was dropped */
};

/* How a lookup goes on. */
enum { HURD_NORMAL = 0, HURD_REAUTH = 1, HURD_MAGICAL = 2 };

/* The kinds of nodes. */
enum { HURD_FILE = 0, HURD_DIR = 1, HURD_LINK = 2, HURD_FIFO = 3, HURD_CHAR = 4 };

/* The numbers of a reply. Those that it has no use for are 0. */
typedef struct hurd_figures {
    uint32_t which;
    uint32_t error;
    uint32_t retry;
    uint32_t kind;
    uint32_t mode;
    uint32_t owner;
    uint32_t group;
    uint32_t links;
    uint32_t translators; /* 1 if the node has a passive translator, and 2 more if a server is active on it */
    uint64_t number;
    uint64_t size;
} hurd_figures;

typedef struct hurd_reply {
    uint32_t status;     /* HURD_DONE, HURD_MEMORY, HURD_NONE or HURD_NO_CALL */
    hurd_figures reply;
    size_t length;       /* how many bytes the reply has: more than were copied if there was too little room */
    size_t told;         /* how many bytes hurd_told gives: of what is learned from the call, or of the calls of an opening */
} hurd_reply;

/* Makes one call, and copies the bytes of its reply as far as there is room. `bytes` are the data of io_write, the path of dir_lookup, the name of an entry; of
   dir_rename its name and then the new one; the words of file_set_translator, fsys_startup and fsys_set_options, each ended by a zero byte; and of auth_makeauth
   and io_restrict_auth two such words, uids and gids with commas between them, or - for none. Names and words in a reply end with a zero byte too; if one has a
   zero byte in it, there are more of them than `number` says.
   After this hurd_told gives what those who are watched learn from the call: nothing if it is a call of their own. If the status is HURD_NO_CALL, nothing changes: there is
   no such call, it has bits that no flag has, or its bytes are not of this form. If it is HURD_MEMORY, the call was made, or nothing changed. */
hurd_reply hurd_call(hurd_world *world, const hurd_request *request, const uint8_t *bytes, size_t size, uint8_t *out, size_t room);

/* Opens what a path leads to, as the commands of a script do. It looks the path up at the port of a directory, or at the root if the path begins with a slash. It
   follows at most 32 retries and starts: a translator that is to be started gets the server that its words make. Then it gives up the ports of the way.
   Of the request it takes the task, the port, the flags of opening, and the mode of a file that is created. If the status is HURD_DONE, the reply is HURD_IS_PORT
   or HURD_IS_REFUSED; it has no bytes.
   After this hurd_told gives all calls that were made, each as hurd_make prints it: its line, its reply, and what is learned from it. If the status is HURD_NO_CALL, a
   flag is unknown, or a call has no line that fits into a list. If it is HURD_NO_CALL or HURD_MEMORY, some first calls may have been made and printed, and the ports that they
   got stay with the task; if it is HURD_MEMORY, the next may have been made too. */
hurd_reply hurd_open(hurd_world *world, const hurd_request *request, const uint8_t *path, size_t size);

/* Copies the line of a list that makes the same call, without a newline, as far as there is room. The status is HURD_NO_CALL if there is no such call, or if its line
   would be longer than a list may be. */
hurd_said hurd_line(const hurd_request *request, const uint8_t *bytes, size_t size, uint8_t *out, size_t room);

/* Each of the next five does what a command of `hurd` does with a whole text, in a world of its own that is freed at the end. It copies what the command prints, as
   far as there is room; `length` says how much that is, and a call with more room gets the rest. If the status is HURD_BAD or HURD_UNKNOWN, it copies the
   complaint instead: what the command prints after the name of the file, from the colon on. At any other failure nothing is copied. */

/* As `hurd run`: the transcript. */
hurd_said hurd_run(uint32_t kind, const uint8_t *text, size_t size, uint8_t *out, size_t room);

/* As `hurd learn`: the transcript and, after each command or call by others, what `who` learn from it. `who` has names of users, or numbers of tasks, with commas
   between them. If `who` is not valid UTF-8, the status is HURD_UNKNOWN, and nothing is copied. */
hurd_said hurd_learn(uint32_t kind, const uint8_t *text, size_t size, const uint8_t *who, size_t who_size, uint8_t *out, size_t room);

/* As `hurd see`: everything that `who` can see at the end of the text. */
hurd_said hurd_see(uint32_t kind, const uint8_t *text, size_t size, const uint8_t *who, size_t who_size, uint8_t *out, size_t room);

/* As `hurd can`: what `who` could be shown at the end of the text, and by whose help. If `every` is 0, it lists bytes, entries and nodes; else it lists every part, as
   with `--all`. */
hurd_said hurd_can(uint32_t kind, const uint8_t *text, size_t size, const uint8_t *who, size_t who_size, uint32_t every, uint8_t *out, size_t room);

/* As `hurd draw`: a picture of the world at the end of the text. It marks what `who` can see; if `who` is empty, it has no marks. */
hurd_said hurd_draw(uint32_t kind, const uint8_t *text, size_t size, const uint8_t *who, size_t who_size, uint8_t *out, size_t room);

#ifdef __cplusplus
}
#endif
#endif
