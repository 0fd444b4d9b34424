/* The allocator that the library asks for, over malloc, which aligns every block to 16 bytes. */
#include "behkuna.h"

#include <stdlib.h>

static _Alignas(16) unsigned char nothing[16];

static struct rattle_block tried(void *block) {
    return (struct rattle_block){block != NULL, block != NULL ? block : nothing};
}

struct rattle_block rattle_alloc(size_t size, size_t align) {
    return tried(malloc(size != 0 ? size : align));
}

struct rattle_block rattle_realloc(void *block, size_t kept, size_t size, size_t align) {
    (void)kept;
    return tried(realloc(block, size != 0 ? size : align));
}

void rattle_dealloc(void *block) {
    free(block);
}
