/* Calls of one kind, whose instructions tools/dev/instructions_c counts: so many of them, of a unit of so many blocks. */
#include "NvM.h"
#include "NvM_Sim.h"
#include <stdio.h>
#include <stdlib.h>
#include <string.h>

#define ID(name) NvMConf_NvMBlockDescriptor_##name

static uint8 flash[NVM_SIM_FLASH_SIZE];

static void turn_until_idle(void) {
    do NvM_MainFunction(); while (!NvM_SimIsIdle());
}

/* Tells whether the call came out as its kind has it. */
static unsigned call(const char *kind, unsigned nth) {
    uint8 content[NVM_LENGTH_First] = { (uint8)nth };
    NvM_RequestResultType result = NVM_REQ_OK;
    unsigned well;
    if (strcmp(kind, "idle") == 0) {
        NvM_MainFunction();
        return NvM_SimIsIdle();
    }
    if (strcmp(kind, "status") == 0) return NvM_GetErrorStatus(ID(First), &result) == E_OK;
    if (strcmp(kind, "pending") == 0) return NvM_WriteBlock(ID(Second), content) != E_OK && NvM_SimRefusal() == 11;
    if (strcmp(kind, "locked") == 0) return NvM_WriteBlock(ID(Third), content) != E_OK && NvM_SimRefusal() == 12;
    if (strcmp(kind, "taken") != 0) return 1;
    well = NvM_WriteBlock(ID(First), content) == E_OK;
    turn_until_idle();
    return well;
}

int main(int count, char **words) {
    const char *kind = count > 1 ? words[1] : "init";
    unsigned calls = count > 2 ? (unsigned)strtoul(words[2], NULL, 10) : 0, well = 0;
    uint8 content[NVM_LENGTH_First] = { 0 };
    memset(flash, 0xFF, sizeof flash);
    NvM_SimFlash(flash, sizeof flash, 0);
    NvM_Init(NULL);
    if (NvM_SimFault() != NVM_SIM_UP) return 2;
    NvM_SetBlockLockStatus(ID(Third), TRUE);
    turn_until_idle();
    if (strcmp(kind, "pending") == 0) {
        calls -= calls > 0;     /* (this one is accepted) */
        (void)NvM_WriteBlock(ID(Second), content);
    }
    for (unsigned nth = 0; nth < calls; nth++) well += call(kind, nth);
    NvM_SimClose();
    return well != calls;
}
