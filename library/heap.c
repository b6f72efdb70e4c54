/* What the proved calls ask of the heap, over malloc, realloc and free: for a target for which the toolchain comes
 * without its C code. The statements are those of the toolchain's crate libc (its file heap.rt), and are trusted. A size
 * of 0 gets a block of its own, and a call that fails gives a pointer that is not NULL, to nothing. */
#include <stdbool.h>
#include <stddef.h>
#include <stdlib.h>

/* The statements allow alignments up to 16, and malloc aligns for any type. */
_Static_assert(_Alignof(max_align_t) >= 16, "malloc does not align to 16 bytes");

struct tried {
    bool ok;
    void *block;
};

struct tried rattle_alloc(size_t size, size_t alignment);
struct tried rattle_realloc(void *block, size_t kept, size_t size, size_t alignment);
void rattle_dealloc(void *block);

static unsigned char nothing;

static struct tried tried(void *block) {
    return (struct tried){block != NULL, block != NULL ? block : &nothing};
}

struct tried rattle_alloc(size_t size, size_t alignment) {
    return tried(malloc(size > 0 ? size : alignment));
}

/* realloc keeps all bytes of the old block that the new one has, so also the first `kept`. */
struct tried rattle_realloc(void *block, size_t kept, size_t size, size_t alignment) {
    (void)kept;
    return tried(realloc(block, size > 0 ? size : alignment));
}

void rattle_dealloc(void *block) {
    free(block);
}
