/*
 * What compiled functions of Rattle call for memory, on machines for which the toolchain has it not compiled: it has it for
 * x86-64 alone, as c/liblibc_c.a. No proof covers it, as none covers the system's malloc.
 */
#include <stddef.h>
#include <stdlib.h>

/* Whether there is memory, 1 or 0, and where it begins. If there is none, the place is one that nothing is stored at. */
struct block {
    size_t is_there;
    void *place;
};

struct block rattle_alloc(size_t size, size_t align);
struct block rattle_realloc(void *old, size_t old_size, size_t size, size_t align);
void rattle_dealloc(void *place, size_t size, size_t align);

static char nothing;

static struct block block_at(void *place)
{
    return (struct block){place != NULL, place != NULL ? place : &nothing};
}

/* No block is empty, since malloc(0) may return NULL: one of no octets has as many as its alignment. */
struct block rattle_alloc(size_t size, size_t align)
{
    return block_at(malloc(size != 0 ? size : align));
}

/* If there is no memory, the old block is as it was. */
struct block rattle_realloc(void *old, size_t old_size, size_t size, size_t align)
{
    (void)old_size;
    return block_at(realloc(old, size != 0 ? size : align));
}

void rattle_dealloc(void *place, size_t size, size_t align)
{
    (void)size;
    (void)align;
    free(place);
}
