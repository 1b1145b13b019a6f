/* A day of a unit over the stand-in of the library, of which each call that may want memory fails so in turn: the unit goes on. It ends with 0 where
   all is as wanted. */
#include "application.h"
#include "NvM_Sim.h"
#include "check.h"
#include "day.h"
#include "fake_nvm_c.h"
#include <string.h>

static uint8 flash[NVM_SIM_FLASH_SIZE];

static void start(void) {
    NvM_Init(NULL);
    CHECK(NvM_SimFault() == (fake_has_failed() ? NVM_SIM_MEMORY : NVM_SIM_UP) && fake_opened == (unsigned)!fake_has_failed());
    if (NvM_SimFault() != NVM_SIM_UP) NvM_Init(NULL);
    CHECK(NvM_SimFault() == NVM_SIM_UP);
}

int main(void) {
    unsigned nth = 0, failed;
    do {
        memset(flash, 0xFF, sizeof flash);
        begin_day();
        NvM_SimFlash(flash, sizeof flash, 0);
        fake_fail(++nth);
        start();
        day();
        failed = (unsigned)fake_has_failed();
        fake_fail(0);
        look();
        CHECK(fake_opened == 0);
        if (failures) printf("call %u failed\n", nth);
    } while (failed && !failures);
    printf("%u calls, each failed once: %u checks, %u failed\n", nth - 1, checks, failures);
    return failures != 0;
}
