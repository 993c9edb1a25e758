/* The memory of the module denovo.wasm: malloc, realloc and free, and over them the three functions that the library's code calls.
 *
 * A block has a power of two of bytes, at least 32, and begins with its class, the exponent. Free blocks of one class are a list. A block that
 * isn't in use stays in its list: blocks aren't split and not joined. All blocks begin at multiples of 16. `memory_limit` bounds how far the
 * module's memory may grow, so that want of memory can be tried; the browser or Node has bounds of its own. */
typedef unsigned long size_t;

enum { HEAD = 16, LEAST_CLASS = 5, CLASSES = 48, PAGE_BITS = 16 };

typedef struct Block {
    size_t class;
    size_t unused;
    struct Block *next; /* of a free block; the caller's first bytes else */
} Block;

extern unsigned char __heap_base;

static Block *free_blocks[CLASSES];
static size_t end_of_blocks;
static size_t limit = (size_t)1 << 40;

void memory_limit(size_t bytes) { limit = bytes; }

/* How far the memory has grown, in bytes. */
size_t memory_size(void) { return __builtin_wasm_memory_size(0) << PAGE_BITS; }

/* Whether the memory reaches so far now. */
static int reaches(size_t end) {
    size_t have = memory_size();
    if (end <= have) return 1;
    if (end > limit) return 0;
    return __builtin_wasm_memory_grow(0, (end - have + 65535) >> PAGE_BITS) != (size_t)-1;
}

static Block *block_of(void *at) { return (Block *)((char *)at - HEAD); }

static void *new_block(size_t class) {
    if (end_of_blocks == 0) end_of_blocks = ((size_t)&__heap_base + HEAD - 1) & ~(size_t)(HEAD - 1);
    size_t end = end_of_blocks + ((size_t)1 << class);
    if (!reaches(end)) return 0;
    Block *block = (Block *)end_of_blocks;
    block->class = class;
    end_of_blocks = end;
    return (char *)block + HEAD;
}

void *malloc(size_t size) {
    size_t class = LEAST_CLASS;
    while (class < CLASSES && ((size_t)1 << class) - HEAD < size) class++;
    if (class == CLASSES) return 0;
    Block *block = free_blocks[class];
    if (block == 0) return new_block(class);
    free_blocks[class] = block->next;
    return (char *)block + HEAD;
}

void free(void *at) {
    if (at == 0) return;
    Block *block = block_of(at);
    block->next = free_blocks[block->class];
    free_blocks[block->class] = block;
}

void *realloc(void *at, size_t size) {
    if (at == 0) return malloc(size);
    size_t room = ((size_t)1 << block_of(at)->class) - HEAD;
    if (size <= room) return at;
    void *other = malloc(size);
    if (other == 0) return 0;
    __builtin_memcpy(other, at, room);
    free(at);
    return other;
}

/* What the library's code calls: two words, whether there was memory, and where it is. No alignment above 16 is asked for. */
typedef struct Taken {
    size_t is_there;
    void *at;
} Taken;

static char nowhere;

static Taken taken(void *at) {
    Taken result = {at != 0, at != 0 ? at : &nowhere};
    return result;
}

Taken rattle_alloc(size_t size, size_t alignment) { return taken(malloc(size != 0 ? size : alignment)); }

Taken rattle_realloc(void *at, size_t old_size, size_t size, size_t alignment) {
    (void)old_size;
    return taken(realloc(at, size != 0 ? size : alignment));
}

void rattle_dealloc(void *at) { free(at); }
