/* The heap of the archive: malloc, with each block overwritten before it is freed or moved, so that
 * no credentials stay in freed memory. It has the three functions that Rattle's code calls, and
 * replaces the toolchain's own. */
#include <stdbool.h>
#include <stddef.h>
#include <stdint.h>
#include <stdlib.h>
#include <string.h>

/* Each block is preceded by its size. This takes as many bytes as the widest alignment that is
 * requested, so the block keeps that. */
typedef struct header {
    _Alignas(16) size_t size;
} header;

typedef struct tried {
    bool ok;
    uint8_t *at;
} tried;

tried rattle_alloc(size_t size, size_t align);
tried rattle_realloc(uint8_t *at, size_t kept, size_t size, size_t align);
void rattle_dealloc(uint8_t *at);

/* The address of an empty block, which takes no memory: not null, and never written to. */
static const uint8_t nothing;

static header *header_of(uint8_t *at) {
    return (header *)(void *)at - 1;
}

static void wipe(void *at, size_t length) {
    memset(at, 0, length);
    __asm__ __volatile__("" : : "r"(at) : "memory");
}

tried rattle_alloc(size_t size, size_t align) {
    size_t room = size == 0 ? align : size;
    header *block = room > SIZE_MAX - sizeof(header) ? NULL : malloc(sizeof(header) + room);
    if (block == NULL)
        return (tried){false, (uint8_t *)(uintptr_t)&nothing};
    block->size = room;
    return (tried){true, (uint8_t *)(block + 1)};
}

tried rattle_realloc(uint8_t *at, size_t kept, size_t size, size_t align) {
    tried moved = rattle_alloc(size, align);
    if (moved.ok) {
        memcpy(moved.at, at, kept < size ? kept : size);
        rattle_dealloc(at);
    }
    return moved;
}

void rattle_dealloc(uint8_t *at) {
    header *block = header_of(at);
    wipe(at, block->size);
    free(block);
}
