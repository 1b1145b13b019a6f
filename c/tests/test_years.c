/* So many requests of a unit, of which each second one is an immediate write that interrupts the long one before it. Behind them as many bytes
   stand on the heap as behind the unit's opening, in as many pieces; and it wasn't called meanwhile. */
#include "NvM.h"
#include "NvM_Sim.h"
#include "heap.h"
#include <stdio.h>
#include <stdlib.h>
#include <string.h>

enum { REQUESTS = 10000000, BEFORE = 5, MOST = 400 };
#define ID(name) NvMConf_NvMBlockDescriptor_##name

Std_ReturnType LongDone(uint8 service, NvM_RequestResultType result);
Std_ReturnType UrgentDone(uint8 service, NvM_RequestResultType result);

static uint8 flash[NVM_SIM_FLASH_SIZE];
static unsigned long asked, stored, interrupted;

static NvM_RequestResultType status_of(NvM_BlockIdType id) {
    NvM_RequestResultType result = NVM_REQ_NOT_OK;
    (void)NvM_GetErrorStatus(id, &result);
    return result;
}

Std_ReturnType LongDone(uint8 service, NvM_RequestResultType result) {
    (void)service;
    stored += result == NVM_REQ_OK;
    return E_OK;
}

/* (where the long write is still pending it was in hand, and begins anew) */
Std_ReturnType UrgentDone(uint8 service, NvM_RequestResultType result) {
    (void)service;
    stored += result == NVM_REQ_OK;
    interrupted += status_of(ID(Long)) == NVM_REQ_PENDING;
    return E_OK;
}

/* Cycles until a write has ended, at most so many. */
static void turn(NvM_BlockIdType id, unsigned most) {
    while (most-- > 0 && status_of(id) == NVM_REQ_PENDING) NvM_MainFunction();
}

static void write_both(unsigned long round) {
    uint8 content[NVM_LENGTH_Long];
    memset(content, (int)(round & 0xFF), sizeof content);
    asked += NvM_WriteBlock(ID(Long), content) == E_OK;
    turn(ID(Long), BEFORE);
    asked += NvM_WriteBlock(ID(Urgent), content) == E_OK;
    turn(ID(Urgent), MOST);
    turn(ID(Long), MOST);
}

int main(int count, char **words) {
    unsigned long requests = count > 1 ? strtoul(words[1], NULL, 10) : (unsigned long)REQUESTS, calls, entries;
    size_t bytes;
    long pieces;
    memset(flash, 0xFF, sizeof flash);
    NvM_SimFlash(flash, sizeof flash, 0);
    NvM_Init(NULL);
    if (NvM_SimFault() != NVM_SIM_UP) return 2;
    bytes = heap_standing;
    pieces = heap_pieces;
    calls = heap_calls;
    asked = stored = interrupted = 0;
    for (unsigned long round = 1; round <= requests / 2; round++) write_both(round);
    calls = heap_calls - calls;
    entries = NvM_SimEntries();
    printf("%lu requests, %lu stored, %lu that interrupted, %lu entries: the heap had %zu bytes, and has %zu; it was called %lu times\n",
           asked, stored, interrupted, entries, bytes, heap_standing, calls);
    if (bytes != heap_standing || pieces != heap_pieces || calls) return 1;
    NvM_SimClose();
    return asked != requests || stored != asked || interrupted != asked / 2 || heap_pieces != 0;
}
