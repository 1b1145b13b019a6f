/* Prints the history of a unit's day, with the power off in one of its operations, and of the start-ups behind it: what tools/judge judges. */
#include "application.h"
#include "NvM_Sim.h"
#include "check.h"
#include "day.h"
#include <stdio.h>
#include <stdlib.h>
#include <string.h>

static uint8 flash[NVM_SIM_FLASH_SIZE], room[4096];

static void print_line(const char *line) { puts(line); }

int main(int count, char **words) {
    uint32 nth = count > 1 ? (uint32)strtoul(words[1], NULL, 10) : 1u;
    memset(flash, 0xFF, sizeof flash);
    NvM_SimFlash(flash, sizeof flash, 1);
    NvM_SimHistory(print_line, room, sizeof room);
    begin_day();
    NvM_Init(NULL);
    CHECK(NvM_SimCut(nth, 8) == E_OK);
    day();
    look();
    return failures != 0 || seen.offs == 0;
}
