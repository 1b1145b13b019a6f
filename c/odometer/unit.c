/* A virtual control unit: an odometer, a trouble code and a WriteAll at its shutdown, over an image file that outlives it.

       unit IMAGE [KILOMETRES] [CUT [KEEP]]

   It drives so many kilometres (3), one in ten cycles of 10 ms, and writes each; every third sets a trouble code, which is urgent.
   Where CUT isn't 0 the power goes off in the CUTth operation of the flash, KEEP bytes of it done; the unit starts up again and
   shows what it finds. Killed at any moment, it goes on with what was acknowledged. docs/C.md goes through it. */
#include "NvM.h"
#include "NvM_Sim.h"
#include <stdio.h>
#include <stdlib.h>

#define ODOMETER NvMConf_NvMBlockDescriptor_Odometer
#define TROUBLE NvMConf_NvMBlockDescriptor_TroubleCode

/* What odometer.json names: the RAM block, the highest byte first, and the callbacks. */
extern uint8 odometer[4];
Std_ReturnType Odometer_Done(uint8 service, NvM_RequestResultType result);
Std_ReturnType Trouble_Done(uint8 service, NvM_RequestResultType result);

uint8 odometer[4];
static unsigned stored;         /* kilometres that are stored for certain */
static unsigned written;        /* kilometres that were asked to be written */
static unsigned trouble;

static unsigned kilometres(void) {
    return (unsigned)odometer[0] << 24 | (unsigned)odometer[1] << 16 | (unsigned)odometer[2] << 8 | odometer[3];
}

static void set_kilometres(unsigned km) {
    for (int i = 0; i < 4; i++) odometer[i] = (uint8)(km >> (24 - 8 * i));
}

/* Called in the main function, when a job has ended. A line is written, so that whoever kills the unit knows what it may find. */
Std_ReturnType Odometer_Done(uint8 service, NvM_RequestResultType result) {
    if (service == NVM_WRITE_PRAM_BLOCK_API_ID && result == NVM_REQ_OK) {
        stored = written;
        printf("stored %u km\n", stored);
    }
    return E_OK;
}

Std_ReturnType Trouble_Done(uint8 service, NvM_RequestResultType result) {
    if (service == NVM_WRITE_BLOCK_API_ID && result != NVM_REQ_OK) printf("trouble code: result %u\n", result);
    return E_OK;
}

/* The 10 ms task: one turn, which changes the flash by one operation at most. */
static void task(void) { NvM_MainFunction(); }

/* Cycles until a request is served or the power is off, at most so many. Tells whether it was served. */
static int await(NvM_BlockIdType block, int most) {
    NvM_RequestResultType result = NVM_REQ_PENDING;
    while (most-- > 0 && !NvM_SimIsOff()) {
        if (NvM_GetErrorStatus(block, &result) == E_OK && result != NVM_REQ_PENDING) return 1;
        task();
    }
    return 0;
}

static void start_up(void) {
    uint8 code[NVM_LENGTH_TroubleCode] = { 0, 0 };
    NvM_ReadAll();
    await(0, 100);
    stored = written = kilometres();
    if (NvM_ReadBlock(TROUBLE, code) == E_OK) await(TROUBLE, 100);
    trouble = (unsigned)code[0] << 8 | code[1];
    printf("found %u km, trouble code %u\n", stored, trouble);
    fflush(stdout);
}

static void drive(unsigned km) {
    for (unsigned end = stored + km; written < end && !NvM_SimIsOff();) {
        set_kilometres(written + 1);
        if (NvM_WritePRAMBlock(ODOMETER) == E_OK) written++;
        if (written % 3 == 0) {
            uint8 code[NVM_LENGTH_TroubleCode] = { (uint8)(written >> 8), (uint8)written };
            (void)NvM_WriteBlock(TROUBLE, code);
        }
        for (int cycle = 0; cycle < 10; cycle++) task();
        await(ODOMETER, 1000);
        await(TROUBLE, 1000);
        fflush(stdout);
    }
}

static void shut_down(void) {
    (void)NvM_SetRamBlockStatus(ODOMETER, TRUE);
    NvM_WriteAll();
    printf(await(0, 1000) ? "shut down at %u km\n" : "not shut down at %u km\n", stored);
    NvM_SimClose();
}

int main(int count, char **words) {
    unsigned km = count > 2 ? (unsigned)strtoul(words[2], NULL, 10) : 3;
    uint32 cut = count > 3 ? (uint32)strtoul(words[3], NULL, 10) : 0;
    uint32 keep = count > 4 ? (uint32)strtoul(words[4], NULL, 10) : 0;
    if (count < 2 || NvM_SimFile(words[1], NVM_SIM_FLASH_SIZE, 1) != E_OK) {
        fprintf(stderr, "unit IMAGE [KILOMETRES] [CUT [KEEP]]\n");
        return 2;
    }
    NvM_Init(NULL);
    if (NvM_SimFault() != NVM_SIM_UP) {
        printf("not up: %u\n", NvM_SimFault());
        return 1;
    }
    start_up();
    if (cut) (void)NvM_SimCut(cut, keep);
    drive(km);
    if (NvM_SimIsOff()) {
        printf("the power went off\n");
        NvM_Init(NULL);
        start_up();
    }
    shut_down();
    return 0;
}
