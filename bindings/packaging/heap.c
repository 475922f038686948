/* The three functions over malloc that the proved code calls, for a processor for which the toolchain has no
 * object of them. A block of no bytes is a block of `least`. A refusal leaves the old block as it was. */
#include <stdint.h>
#include <stdlib.h>

typedef struct tried {
    uint64_t ok;
    void *block;
} tried;

static tried tell(void *block) {
    static char none;
    return (tried){block != NULL, block != NULL ? block : &none};
}

tried rattle_alloc(uint64_t size, uint64_t least) { return tell(malloc(size != 0 ? size : least)); }

tried rattle_realloc(void *block, uint64_t old, uint64_t size, uint64_t least) {
    (void)old;
    return tell(realloc(block, size != 0 ? size : least));
}

void rattle_dealloc(void *block) { free(block); }
