/* heap.h: what a test asks of the heap in heap.c. */
#ifndef HEAP_H
#define HEAP_H

#include <stdbool.h>
#include <stddef.h>

/* Begins to count anew, and refuses the allocation of that number, from 0 on;
 * none where it is negative. */
void heap_refuse(long number);

/* Refuses all allocations after so many more, until heap_refuse is called. */
void heap_end(long more);

/* How many allocations were asked for since then. */
long heap_asked(void);

/* How many blocks are out. */
long heap_out(void);

#endif
