/* The heap of a module in a web page, like the kit's own heap over malloc.

   A block has 16 * 2^k bytes, after a head of 16 bytes that has its k. Freed blocks are in a list for each k. A request beyond `most` pages fails; the program
   then prints what it is proved to print. */
typedef unsigned long long u64;
typedef unsigned long address; /* as wide as a pointer */
typedef unsigned char u8;

/* whether there is memory, and where; otherwise a place that nobody reads */
struct tried {
    u64 ok, place;
};

struct head {
    u64 order;
    struct head *next; /* in the list of freed blocks */
};

enum { ORDERS = 28, PAGE = 16, LEAST_PAGES = 16 };

extern u8 __heap_base;
static u64 most = 4096; /* pages of 64 KiB: 256 MiB */
static u64 at, end;
static struct head *freed[ORDERS];
static u8 nothing;
static u64 requests, refused; /* how many there were, and which one is refused, if any */

static u64 order_of(u64 bytes) {
    u64 order = 0;
    while (((u64)16 << order) < bytes) order++;
    return order;
}

/* whether there are `bytes` more after all blocks; memory grows if it can */
static int grows(u64 bytes) {
    if (!at) {
        at = ((u64)(address)&__heap_base + 15) & ~(u64)15;
        end = (u64)__builtin_wasm_memory_size(0) << PAGE;
    }
    if (end - at >= bytes) return 1;
    u64 pages = (bytes - (end - at) + ((u64)1 << PAGE) - 1) >> PAGE;
    if (pages < LEAST_PAGES) pages = LEAST_PAGES;
    if ((end >> PAGE) + pages > most || __builtin_wasm_memory_grow(0, pages) == (address)-1) return 0;
    end += pages << PAGE;
    return 1;
}

static void *taken(u64 bytes) {
    if (bytes > (u64)16 << (ORDERS - 1)) return 0;
    u64 order = order_of(bytes), whole = ((u64)16 << order) + sizeof(u64) * 2;
    struct head *block = freed[order];
    if (block) {
        freed[order] = block->next;
    } else {
        if (!grows(whole)) return 0;
        block = (struct head *)(address)at;
        at += whole;
        block->order = order;
    }
    return (u8 *)block + sizeof(u64) * 2;
}

static struct head *head_of(void *place) { return (struct head *)((u8 *)place - sizeof(u64) * 2); }

static struct tried tried_at(void *place) { return (struct tried){place != 0, (address)(place ? place : &nothing)}; }

void give(void *place) {
    struct head *block = head_of(place);
    block->next = freed[block->order];
    freed[block->order] = block;
}

/* no program asks for an alignment above 16 */
static int is_refused(u64 align) { return ++requests == refused || align > 16; }

struct tried rattle_alloc(u64 bytes, u64 align) { return tried_at(is_refused(align) ? 0 : taken(bytes)); }

struct tried rattle_realloc(void *place, u64 kept, u64 bytes, u64 align) {
    if (is_refused(align)) return tried_at(0);
    if (bytes <= (u64)16 << head_of(place)->order) return tried_at(place);
    void *more = taken(bytes);
    if (!more) return tried_at(0);
    __builtin_memcpy(more, place, kept < bytes ? kept : bytes);
    give(place);
    return tried_at(more);
}

void rattle_dealloc(void *place) { give(place); }

#define EXPORT(name) __attribute__((export_name(name)))

/* for tests without memory: fewer pages, the request that is refused, and how many there were */
EXPORT("limit") void limit(u64 pages) { most = pages; }
EXPORT("refuse") void refuse(u64 which) { refused = which; }
EXPORT("requested") u64 requested(void) { return requests; }

/* room for a text that the page puts in; 0 if there is none */
EXPORT("room") u64 room(u64 bytes) { return (address)taken(bytes); }
