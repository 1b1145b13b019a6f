/* Which RAM blocks a WriteAll stores behind each result of a request, over the stand-in of the library, whose jobs can fail. It ends with 0 where
   all is as wanted. */
#include "application.h"
#include "NvM_Sim.h"
#include "check.h"
#include "fake_nvm_c.h"
#include <string.h>

static uint8 flash[NVM_SIM_FLASH_SIZE];

typedef Std_ReturnType (*service_of)(NvM_BlockIdType id);
enum { ANY = 0 };

/* Of Member: whether it was marked before, what is asked, the result that its job is made to end with, the one that it has, and whether a
   WriteAll stores the RAM block then. */
static const struct { boolean was_marked; service_of service; uint8 made, result, is_stored; } CASES[] = {
    { FALSE, NvM_WritePRAMBlock, ANY, NVM_REQ_OK, 0 },
    { TRUE, NvM_WritePRAMBlock, ANY, NVM_REQ_OK, 0 },
    { FALSE, NvM_WritePRAMBlock, NVM_REQ_REDUNDANCY_FAILED, NVM_REQ_REDUNDANCY_FAILED, 0 },
    { FALSE, NvM_WritePRAMBlock, NVM_REQ_NOT_OK, NVM_REQ_NOT_OK, 1 },   /* the application asked for it, so it isn't forgotten */
    { TRUE, NvM_WritePRAMBlock, NVM_REQ_NOT_OK, NVM_REQ_NOT_OK, 1 },
    { TRUE, NvM_ReadPRAMBlock, ANY, NVM_REQ_OK, 0 },
    { TRUE, NvM_ReadPRAMBlock, NVM_REQ_NOT_OK, NVM_REQ_NOT_OK, 0 },     /* nothing is known of what stands there */
    { FALSE, NvM_RestorePRAMBlockDefaults, ANY, NVM_REQ_OK, 1 },
    { TRUE, NvM_InvalidateNvBlock, ANY, NVM_REQ_OK, 1 },
};

static void one(size_t nth) {
    memset(Member, 0x41, 4);
    CHECK(NvM_WritePRAMBlock(ID(Member)) == E_OK && await(ID(Member)) == NVM_REQ_OK);
    memset(Member, 0x42, 4);
    CHECK(NvM_SetRamBlockStatus(ID(Member), CASES[nth].was_marked) == E_OK);
    fake_next_result(CASES[nth].made);
    CHECK(CASES[nth].service(ID(Member)) == E_OK && await(ID(Member)) == CASES[nth].result);
    memset(Member, 0x43, 4);
    NvM_WriteAll();
    CHECK(await(0) == NVM_REQ_OK && status(ID(Member)) == (CASES[nth].is_stored ? NVM_REQ_OK : NVM_REQ_BLOCK_SKIPPED));
    if (failures) printf("case %u failed\n", (unsigned)nth);
}

/* Likewise as a member of a ReadAll, whose first one is block 1. */
static void members(void) {
    unsigned before = seen.member.count;
    memset(Member, 0x44, 4);
    CHECK(NvM_SetRamBlockStatus(ID(Member), TRUE) == E_OK);
    NvM_ReadAll();
    while (status(1) != NVM_REQ_PENDING) cycle();
    while (status(1) == NVM_REQ_PENDING) cycle();
    fake_next_result(NVM_REQ_NOT_OK);
    while (seen.member.count == before) cycle();
    CHECK(await(0) == NVM_REQ_NOT_OK && status(ID(Member)) == NVM_REQ_NOT_OK);
    NvM_WriteAll();
    CHECK(await(0) == NVM_REQ_OK && status(ID(Member)) == NVM_REQ_BLOCK_SKIPPED);
}

int main(void) {
    memset(flash, 0xFF, sizeof flash);
    NvM_SimFlash(flash, sizeof flash, 0);
    NvM_Init(NULL);
    NvM_ReadAll();
    CHECK(await(0) == NVM_REQ_OK);
    for (size_t i = 0; i < sizeof CASES / sizeof CASES[0]; i++) one(i);
    members();
    NvM_SimClose();
    printf("%u checks, %u failed\n", checks, failures);
    return failures != 0;
}
