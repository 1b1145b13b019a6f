/* ReadAll gives RAM to its members alone. It ends with 0 where each RAM block has what it should have, else it says which has not. */
#include "NvM.h"
#include "NvM_Sim.h"
#include <stdio.h>
#include <string.h>

/* A member that outlives a change of the configuration, one that gets its defaults then, a block that is none, and one that was read
   by itself. The texts differ in the id alone. */
#define BLOCKS_TEXT \
    "\"page\":16,\"sector\":1024,\"sectors\":8,\"standard\":4,\"immediate\":1,\"blocks\":[" \
    "{\"length\":4,\"ram\":\"permanent\",\"readall\":true,\"writeall\":true,\"resistant\":true}," \
    "{\"length\":4,\"ram\":\"permanent\",\"readall\":true,\"writeall\":true,\"defaults\":\"33*4\"}," \
    "{\"length\":4,\"ram\":\"permanent\"}," \
    "{\"length\":4,\"ram\":\"permanent\",\"defaults\":\"55*4\"}]}"
static const char *const FIRST[] = { "{\"id\":7,", BLOCKS_TEXT, NULL }, *const SECOND[] = { "{\"id\":8,", BLOCKS_TEXT, NULL };
enum { FLASH_SIZE = 1024 * 8, RESISTANT = 2, MEMBER = 3, OWN = 4, READ = 5, COUNT = 4, LENGTH = 4, ROOM = 1024, IS_MEMBER = NVM_IN_READALL | NVM_IN_WRITEALL };

static uint8 flash[FLASH_SIZE], ram[COUNT][LENGTH], room[ROOM];
static const NvM_BlockDescriptorType BLOCKS[] = {
    { LENGTH, IS_MEMBER, 0, ram[0], NULL, NULL, NULL, NULL },
    { LENGTH, IS_MEMBER | NVM_HAS_DEFAULTS, 0, ram[1], NULL, NULL, NULL, NULL },
    { LENGTH, 0, 0, ram[2], NULL, NULL, NULL, NULL },
    { LENGTH, NVM_HAS_DEFAULTS, 0, ram[3], NULL, NULL, NULL, NULL },
};
static int failures;

static uint8 *ram_of(NvM_BlockIdType id) { return ram[id - RESISTANT]; }
static void set(NvM_BlockIdType id, uint8 byte) { memset(ram_of(id), byte, LENGTH); }

static void expect(const char *when, NvM_BlockIdType id, uint8 byte) {
    for (int i = 0; i < LENGTH; i++) {
        if (ram_of(id)[i] == byte) continue;
        printf("%s: block %u has %02x and not %02x\n", when, id, ram_of(id)[i], byte);
        failures++;
        return;
    }
}

static NvM_RequestResultType await(NvM_BlockIdType id) {
    NvM_RequestResultType result = NVM_REQ_PENDING;
    for (int cycle = 0; cycle < 1000 && result == NVM_REQ_PENDING; cycle++) {
        NvM_MainFunction();
        (void)NvM_GetErrorStatus(id, &result);
    }
    return result;
}

static void open_unit(const char *const *text) {
    static NvM_ConfigType config = { NULL, BLOCKS, COUNT, room, ROOM, NULL, NULL, NULL, NULL, NULL };
    NvM_SimClose();
    config.text = text;
    NvM_SimFlash(flash, FLASH_SIZE, 0);
    NvM_Init(&config);
    if (NvM_SimFault() != NVM_SIM_UP) failures++;
}

static void set_all(void) {
    for (unsigned id = RESISTANT; id <= READ; id++) set((NvM_BlockIdType)id, (uint8)(0xE0 + id));
}

static void first_life(void) {
    memset(flash, 0xFF, FLASH_SIZE);
    set_all();
    open_unit(FIRST);
    NvM_ReadAll();
    await(0);
    expect("a blank flash", RESISTANT, 0xE2);   /* it is empty, and has no defaults */
    expect("a blank flash", MEMBER, 0x33);
    expect("a blank flash", OWN, 0xE4);
    expect("a blank flash", READ, 0xE5);
    set(RESISTANT, 0x22);
    set(MEMBER, 0x44);
    (void)NvM_SetRamBlockStatus(RESISTANT, TRUE);
    (void)NvM_SetRamBlockStatus(MEMBER, TRUE);
    NvM_WriteAll();
    if (await(0) != NVM_REQ_OK) failures++;
}

static void same_configuration(void) {
    set_all();
    open_unit(FIRST);
    (void)NvM_ReadBlock(READ, NULL);
    await(READ);
    expect("a read", READ, 0x55);
    set(READ, 0xE5);
    NvM_ReadAll();
    await(0);
    expect("the same id", RESISTANT, 0x22);
    expect("the same id", MEMBER, 0x44);
    expect("the same id", OWN, 0xE4);
    expect("the same id", READ, 0xE5);
}

static void changed_configuration(void) {
    set_all();
    open_unit(SECOND);
    for (int again = 0; again < 2; again++) {
        set(MEMBER, 0xE3);
        NvM_ReadAll();
        await(0);
        expect("another id", RESISTANT, 0x22);
        expect("another id", MEMBER, 0x33);
        expect("another id", OWN, 0xE4);
        expect("another id", READ, 0xE5);
    }
    NvM_SimClose();
}

int main(void) {
    first_life();
    same_configuration();
    changed_configuration();
    if (!failures) printf("each member has what was stored or its defaults, and no other block was touched\n");
    return failures != 0;
}
