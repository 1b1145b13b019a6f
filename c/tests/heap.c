/* What stands in the place of the C library's heap, and counts each byte that it is asked for. */
#include "heap.h"
#include <stdlib.h>
#include <string.h>

void *__wrap_malloc(size_t size);
void *__wrap_realloc(void *at, size_t size);
void __wrap_free(void *at);

size_t heap_standing, heap_most;
long heap_pieces;
unsigned long heap_calls;

/* A size stands before each piece of memory, as far in front of it as its alignment asks. */
enum { BEFORE = 16 };

static void *note(unsigned char *at, size_t size) {
    if (!at) return NULL;
    memcpy(at, &size, sizeof size);
    heap_standing += size;
    heap_pieces++;
    if (heap_standing > heap_most) heap_most = heap_standing;
    return at + BEFORE;
}

static void forget(const unsigned char *at) {
    size_t size;
    memcpy(&size, at - BEFORE, sizeof size);
    heap_standing -= size;
    heap_pieces--;
}

static void *take(size_t size) { return note((unsigned char *)__real_malloc(size + BEFORE), size); }

static void give_back(void *at) {
    if (!at) return;
    forget((unsigned char *)at);
    __real_free((unsigned char *)at - BEFORE);
}

void *__wrap_malloc(size_t size) {
    heap_calls++;
    return take(size);
}

void __wrap_free(void *at) {
    heap_calls++;
    give_back(at);
}

/* (the old piece and the new one stand beside each other, as they do where the heap moves it) */
void *__wrap_realloc(void *at, size_t size) {
    size_t old = 0;
    void *made = take(size);
    heap_calls++;
    if (!at || !made) return made;
    memcpy(&old, (unsigned char *)at - BEFORE, sizeof old);
    memcpy(made, at, old < size ? old : size);
    give_back(at);
    return made;
}
