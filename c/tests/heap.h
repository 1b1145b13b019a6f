/* The heap, counted: the linker puts what stands in heap.c in the place of the C library's (-Wl,--wrap=malloc,--wrap=realloc,--wrap=free). */
#ifndef HEAP_H
#define HEAP_H

#include <stddef.h>

/* How many bytes stand, the most that stood, in how many pieces, and how often the heap was called. */
extern size_t heap_standing, heap_most;
extern long heap_pieces;
extern unsigned long heap_calls;

void *__real_malloc(size_t size);
void __real_free(void *at);

#endif
