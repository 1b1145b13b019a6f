/* The history of a unit, line by line, as the program prints it. Each proved call adds one entry at most, so the last one is told behind
   each call that added one. */
#include "shim.h"

void (*NvMShim_ToldTo)(const char *line);
static uint8 *line_room;
static size_t line_size;
static uint32 told;

void NvM_SimHistory(void (*line)(const char *text), uint8 *room, size_t size) {
    NvMShim_ToldTo = room && size ? line : NULL;
    line_room = room;
    line_size = size;
}

/* (a unit that is opened anew counts from 0 again) */
void NvMShim_BeginHistory(void) { told = 0; }

void NvMShim_TellLine(void) {
    size_t size = 0;
    uint32 entries = nvm_entries(&NvMShim.handle);
    if (entries == told) return;
    told = entries;
    if (nvm_line(&NvMShim.handle, line_room, line_size, &size) != 0 || size == 0 || size > line_size) return;
    line_room[size - 1] = 0;
    NvMShim_ToldTo((const char *)line_room);
}
