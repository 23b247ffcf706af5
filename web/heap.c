/*
 * The heap of the module, in its own memory. A block has a power of two bytes, with a head of 16 in front, and a block
 * that is given back is taken again for the next of its size. Blocks are aligned to 16 bytes.
 *
 * rattle_alloc, rattle_dealloc and rattle_realloc are what compiled Rattle calls; mtrr_take and mtrr_give are the host's.
 */
typedef unsigned long size_t;

typedef struct Head {
    size_t log;
    struct Head *next;
} Head;

typedef struct {
    size_t ok;
    void *block;
} Tried;

#define EXPORT(name) __attribute__((export_name(name)))
#define LEAST_LOG 5
#define GREATEST_LOG 32
#define PAGE ((size_t)65536)

extern char __heap_base;
static Head *freed[GREATEST_LOG + 1];
static char *top;
static char none;

/* Whether the memory has so many bytes, or has them now. */
static int reaches(size_t end) {
    size_t pages = (end + PAGE - 1) / PAGE, has = __builtin_wasm_memory_size(0);
    return pages <= has || __builtin_wasm_memory_grow(0, pages - has) != (size_t)-1;
}

EXPORT("mtrr_take") void *mtrr_take(size_t size) {
    size_t log = LEAST_LOG;
    if (size > ((size_t)1 << GREATEST_LOG) - sizeof(Head)) return 0;
    while (((size_t)1 << log) < size + sizeof(Head)) log++;
    Head *head = freed[log];
    if (head) {
        freed[log] = head->next;
        return head + 1;
    }
    if (!top) top = (char *)(((size_t)&__heap_base + 15) & ~(size_t)15);
    if (!reaches((size_t)top + ((size_t)1 << log))) return 0;
    head = (Head *)top;
    head->log = log;
    top += (size_t)1 << log;
    return head + 1;
}

EXPORT("mtrr_give") void mtrr_give(void *block) {
    Head *head = (Head *)block - 1;
    head->next = freed[head->log];
    freed[head->log] = head;
}

Tried rattle_alloc(size_t size, size_t align) {
    void *block = mtrr_take(size ? size : align);
    return (Tried){block != 0, block ? block : &none};
}

void rattle_dealloc(void *block) { mtrr_give(block); }

Tried rattle_realloc(void *block, size_t kept, size_t size, size_t align) {
    (void)kept;
    size_t has = ((size_t)1 << ((Head *)block - 1)->log) - sizeof(Head);
    if (size <= has) return (Tried){1, block};
    Tried tried = rattle_alloc(size, align);
    if (tried.ok) {
        __builtin_memcpy(tried.block, block, has);
        mtrr_give(block);
    }
    return tried;
}
