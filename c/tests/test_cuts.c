/* A day of a unit, with the power off in each of its operations in turn, nothing, half, all but one byte or all of it done. It ends with 0
   where each start-up behind a cut finds what it may. */
#include "application.h"
#include "NvM_Sim.h"
#include "check.h"
#include "day.h"
#include <string.h>

static uint8 flash[NVM_SIM_FLASH_SIZE];

int main(void) {
    static const uint32 KEPT[] = { 0, 8, 15, 16 };      /* of a page of 16 bytes */
    unsigned cuts = 0;
    for (unsigned i = 0; i < sizeof KEPT / sizeof *KEPT; i++) {
        uint32 nth = 0;
        do {
            memset(flash, 0xFF, sizeof flash);
            begin_day();
            seen.offs = 0;
            NvM_SimFlash(flash, sizeof flash, 1);
            NvM_Init(NULL);
            CHECK(NvM_SimCut(++nth, KEPT[i]) == E_OK);
            day();
            look();
            cuts += seen.offs;
            if (failures) printf("operation %u, %u bytes of it done\n", (unsigned)nth, (unsigned)KEPT[i]);
        } while (seen.offs && !failures);
    }
    printf("%u power cuts, one in each operation of a day: %u checks, %u failed\n", cuts, checks, failures);
    return failures != 0 || cuts == 0;
}
