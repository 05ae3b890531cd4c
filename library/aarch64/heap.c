/* The heap of the proved code on ARM64, for which the toolchain has no archive liblibc_c.a: what the functions of libc::heap
   owe, over the C library. Their contracts are in the toolchain's rattle/libc/src/heap.rt. Nothing proves that these keep them. */
#include <stdbool.h>
#include <stddef.h>
#include <stdlib.h>

/* Whether there is memory, and where. Where there is none, p points to a byte that is nobody's: it is never null. */
struct tried {
    bool ok;
    void *p;
};

static struct tried tried(void *p) {
    static char nothing;
    return (struct tried){p != NULL, p != NULL ? p : &nothing};
}

/* What is asked of a block: its alignment a divides 16. */
_Static_assert(_Alignof(max_align_t) == 16, "malloc and realloc align each block to 16 bytes");

/* A new block of n bytes. Where n is 0 it has an address of its own all the same. */
struct tried rattle_alloc(size_t n, size_t a) { return tried(malloc(n != 0 ? n : a)); }

/* Makes the block at p, which may move, one of n bytes; its bytes stay. Where there is no memory for it, it is left as it was. */
struct tried rattle_realloc(void *p, size_t kept, size_t n, size_t a) {
    (void)kept;
    return tried(realloc(p, n != 0 ? n : a));
}

/* Frees what either gave. */
void rattle_dealloc(void *p) { free(p); }
