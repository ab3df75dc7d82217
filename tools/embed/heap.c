/* A heap of the program's own for the library: the three functions that it
 * takes memory by, in place of those that come with it. This one counts what is
 * out, and refuses an allocation by its number, so that each can be tried. */
#include "heap.h"
#include "strokes.h"
#include <limits.h>
#include <stdatomic.h>
#include <stdlib.h>

static atomic_long asked, out, refused = -1, ended = LONG_MAX;

void heap_refuse(long number) {
    atomic_store(&asked, 0);
    atomic_store(&refused, number);
    atomic_store(&ended, LONG_MAX);
}

void heap_end(long more) { atomic_store(&ended, atomic_load(&asked) + more); }

long heap_asked(void) { return atomic_load(&asked); }

long heap_out(void) { return atomic_load(&out); }

static bool refuses(void) {
    long number = atomic_fetch_add(&asked, 1);
    return number == atomic_load(&refused) || number >= atomic_load(&ended);
}

/* Where there is none, some address that isn't NULL goes with the `false`. */
static strokes_block block(void *at) {
    static char none;
    return (strokes_block){at != NULL, at ? at : &none};
}

strokes_block strokes_heap_alloc(size_t bytes, size_t align) {
    void *at = refuses() ? NULL : malloc(bytes ? bytes : align);
    if (at) atomic_fetch_add(&out, 1);
    return block(at);
}

strokes_block strokes_heap_realloc(void *at, size_t kept, size_t bytes, size_t align) {
    (void)kept;
    return block(refuses() ? NULL : realloc(at, bytes ? bytes : align));
}

void strokes_heap_free(void *at) {
    atomic_fetch_sub(&out, 1);
    free(at);
}
