/* A program whose own functions for memory, those of heap.c, are to serve the
 * library and that of its threads, however they are linked. */
#include "heap.h"
#include "strokes_crew.h"
#include <stdio.h>

/* Prints a line of what doesn't hold, and counts it. */
static int odd(int holds, const char *what) {
    if (!holds) printf("own_heap: %s\n", what);
    return !holds;
}

int main(void) {
    const strokes_canvas canvas = {100, 100, 0xffffff};
    const strokes_crew_options options = {.threads = 2};
    strokes_desk desk = {0};
    strokes_crew crew = {0};
    int odds = 0;
    heap_refuse(0);
    odds += odd(strokes_open(&desk, &canvas, 3) == STROKES_NO_MEMORY, "a refused allocation opens a desk");
    heap_refuse(-1);
    odds += odd(strokes_open(&desk, &canvas, 3) == STROKES_OK && heap_out() > 0, "a desk is opened by another heap");
    heap_refuse(0);
    odds += odd(strokes_crew_start(&crew, &desk, &options) == STROKES_NO_MEMORY, "a refused allocation starts a crew");
    heap_refuse(-1);
    odds += odd(strokes_crew_start(&crew, &desk, &options) == STROKES_OK, "a crew doesn't start");
    odds += odd(strokes_feed(strokes_crew_lock(&crew), "layer 1 0 0", 11) == STROKES_OK, "a line isn't fed");
    strokes_crew_unlock(&crew);
    odds += odd(strokes_crew_settle(&crew, STROKES_CREW_NO_LIMIT) == STROKES_OK, "the desk isn't settled");
    strokes_crew_close(&crew);
    odds += odd(heap_out() == 0, "blocks are left");
    return odds > 0;
}
