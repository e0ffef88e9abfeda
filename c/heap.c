/*
 * The heap, as the compiled library calls it, over the C library's.
 *
 * The toolchain has this part built for x86-64 alone, so for other processors it is compiled of this file, by the
 * toolchain's own clang (c/join.sh). It includes no header, so that the same compiler gives the same bytes on each machine.
 *
 * A size of 0 asks for as many bytes as the alignment, so that the C library gives a block of its own for it. An alignment
 * is 16 at the most, which every block of the C library has.
 */

typedef __SIZE_TYPE__ size_t;

void *malloc(size_t size);
void *realloc(void *block, size_t size);
void free(void *block);

/* What comes of a request: whether there is a block, and where it begins; where there is none a place that isn't null. */
struct tried {
    _Bool ok;
    void *block;
};

static char nowhere;

static struct tried tried(void *block) {
    struct tried found = {block != 0, block ? block : &nowhere};
    return found;
}

struct tried rattle_alloc(size_t size, size_t alignment) {
    return tried(malloc(size ? size : alignment));
}

/* The first `kept` bytes stay as they are, as in each block that `realloc` moves. */
struct tried rattle_realloc(void *block, size_t kept, size_t size, size_t alignment) {
    (void)kept;
    return tried(realloc(block, size ? size : alignment));
}

void rattle_dealloc(void *block) {
    free(block);
}
