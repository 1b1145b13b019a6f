/* A long run: so many cycles of 10 ms, in each of which a status is polled, and in every fiftieth the trouble code is written. It ends with 0
   where every write was stored, and memory stayed as it was behind the second tenth. */
#include "NvM.h"
#include "NvM_Sim.h"
#include <stdio.h>
#include <stdlib.h>
#include <string.h>
#include <unistd.h>

#define TROUBLE NvMConf_NvMBlockDescriptor_TroubleCode
enum { CYCLES = 5000000 };

extern uint8 odometer[4];
Std_ReturnType Odometer_Done(uint8 service, NvM_RequestResultType result);
Std_ReturnType Trouble_Done(uint8 service, NvM_RequestResultType result);

uint8 odometer[4];
static uint8 flash[NVM_SIM_FLASH_SIZE];
static unsigned ended, failed;

Std_ReturnType Odometer_Done(uint8 service, NvM_RequestResultType result) {
    (void)service;
    (void)result;
    return E_OK;
}

Std_ReturnType Trouble_Done(uint8 service, NvM_RequestResultType result) {
    (void)service;
    ended++;
    failed += result != NVM_REQ_OK;
    return E_OK;
}

/* What the process has of its own in memory now, in kB: pages of files, as of the program's text, come and go with the system. */
static long memory(void) {
    long resident = 0, shared = 0;
    FILE *file = fopen("/proc/self/statm", "r");
    if (file && fscanf(file, "%*d %ld %ld", &resident, &shared) != 2) resident = shared = 0;
    if (file) fclose(file);
    return (resident - shared) * (sysconf(_SC_PAGESIZE) / 1024);
}

int main(int count, char **words) {
    unsigned long cycles = count > 1 ? strtoul(words[1], NULL, 10) : (unsigned long)CYCLES;
    unsigned asked = 0;
    unsigned long entries;
    long before = 0, more;
    memset(flash, 0xFF, sizeof flash);
    NvM_SimFlash(flash, sizeof flash, 0);
    NvM_Init(NULL);
    if (NvM_SimFault() != NVM_SIM_UP) return 2;
    for (unsigned long cycle = 0; cycle < cycles; cycle++) {
        NvM_RequestResultType result = NVM_REQ_PENDING;
        (void)NvM_GetErrorStatus(TROUBLE, &result);
        if (cycle % 50 == 0 && result != NVM_REQ_PENDING) {
            uint8 code[NVM_LENGTH_TroubleCode] = { (uint8)(asked >> 8), (uint8)asked };
            asked += NvM_WriteBlock(TROUBLE, code) == E_OK;
        }
        NvM_MainFunction();
        if (cycle == cycles / 5) before = memory();
    }
    more = memory() - before;
    entries = NvM_SimEntries();
    printf("%lu cycles, %u writes asked, %u ended, %u failed, %lu entries, %ld kB more\n", cycles, asked, ended, failed, entries, more);
    NvM_SimClose();
    return asked == 0 || asked - ended > 1 || failed || more > 0;
}
