/* The gearbox's software on a PC: its flash is a file.

       gearbox IMAGE [KILOMETRES] */
#include "Gearbox.h"
#include "MemIf.h"
#include "NvM.h"
#include "NvM_Sim.h"
#include <stdio.h>
#include <stdlib.h>

enum { MOST_CYCLES = 5000 };

static void run(void) {
    int cycle = 0;
    do SchM_Task10ms();
    while (MemIf_GetStatus(0) != MEMIF_IDLE && ++cycle < MOST_CYCLES);
}

int main(int count, char **words) {
    if (count < 2 || NvM_SimFile(words[1], NVM_SIM_FLASH_SIZE, 0) != E_OK) {
        fprintf(stderr, "gearbox IMAGE [KILOMETRES]\n");
        return 2;
    }
    EcuM_StartUp();
    if (NvM_SimFault() != NVM_SIM_UP) return 1;
    run();
    Gearbox_Show();
    Gearbox_Drive((uint16)(count > 2 ? strtoul(words[2], NULL, 10) : 2));
    run();
    Gearbox_Crash();
    run();
    EcuM_ShutDown();
    run();
    NvM_SimClose();
    return !Gearbox_IsAtRest();
}
