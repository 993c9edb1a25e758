/* The three functions of memory that the library's code calls, over malloc, realloc and free. Each of the first two gives two words: whether there
 * was memory, and where it is. */
#include <stdlib.h>

typedef struct Taken {
    size_t is_there;
    void *at;
} Taken;

static char nowhere;

static Taken taken(void *at) {
    Taken result = {at != NULL, at != NULL ? at : &nowhere};
    return result;
}

Taken rattle_alloc(size_t size, size_t alignment) { return taken(malloc(size != 0 ? size : alignment)); }

Taken rattle_realloc(void *at, size_t old_size, size_t size, size_t alignment) {
    (void)old_size;
    return taken(realloc(at, size != 0 ? size : alignment));
}

void rattle_dealloc(void *at) { free(at); }
