/* The exports of crates/nvm_c, which are proved: each states what it does over what the handle keeps (crates/nvm_c/src).
   What C owes them stands in docs/C.md. */
#ifndef NVM_C_H
#define NVM_C_H

#include <stddef.h>
#include <stdint.h>

#ifdef __cplusplus
extern "C" {
#endif

/* A unit, or none where it is {0}, as it has to begin. It is never copied or written. */
typedef struct { void *at; } nvm_handle;

/* Memory that C lends: so many bytes at an address, or none where it is {0}. */
typedef struct { uint8_t *at; size_t length; } nvm_memory;

/* What nvm_ask is asked: the standard's identifiers of its services, and one of our own. */
enum {
    NVM_SET_DATA_INDEX = 1, NVM_GET_DATA_INDEX = 2, NVM_SET_BLOCK_PROTECTION = 3, NVM_SET_RAM_BLOCK_STATUS = 5,
    NVM_READ_BLOCK = 6, NVM_WRITE_BLOCK = 7, NVM_RESTORE_BLOCK_DEFAULTS = 8, NVM_ERASE_NV_BLOCK = 9,
    NVM_CANCEL_WRITE_ALL = 10, NVM_INVALIDATE_NV_BLOCK = 11, NVM_READ_ALL = 12, NVM_WRITE_ALL = 13,
    NVM_SET_BLOCK_LOCK_STATUS = 19, NVM_READ_PERMANENT_RAM = 22, NVM_WRITE_PERMANENT_RAM = 23,
    NVM_RESTORE_PERMANENT_RAM = 24, NVM_PUT_RAM = 128
};

/* 0 it is open; else the memory is in back: 1 the text is no configuration, 2 it hasn't the flash's size, 4 no memory, 5 the
   configuration has a second device. At 1, 2 and 5 its bytes are proved to be as they were, at 4 as they were or attached. cuts is how many
   power cuts can be planned. */
uint8_t nvm_open(nvm_handle *handle, const uint8_t *text, size_t text_length, nvm_memory flash, uint32_t cuts, nvm_memory *back);

/* 0 accepted, 1 refused for the reason in value, 2 the data index is in value, 3 the history is full, 4 no memory, 5 the last
   start-up failed, 6 no service has this number. number is an index, or a setting where 0 is off. */
uint8_t nvm_ask(nvm_handle *handle, uint8_t service, uint16_t block, uint8_t number, const uint8_t *content, size_t length, uint8_t *value);

/* 0 nothing was to be done, 1 a step was made, 2 a job was taken in hand, 3 a job was posted, 4 the power is off, 5 as above. */
uint8_t nvm_turn(nvm_handle *handle);

/* 0 it is planned: in the nth changing operation of the flash from now, keep bytes of it done. 5 as above. 6 none is planned, and
   nothing changed: as many were planned as nvm_open was told, or nth is 0. */
uint8_t nvm_cut(nvm_handle *handle, uint32_t nth, uint32_t keep);

/* 0 the start-up stands, 1 it failed, 3 the history is full. It takes no memory. */
uint8_t nvm_restart(nvm_handle *handle);

/* Looks, which change nothing. A content goes to the front of into where there is room for it; size is always its own. 0 it was
   copied, as always by nvm_ram; 1 the last entry gave nothing (nvm_given), or there is none (nvm_line); 4 no memory (nvm_line). */
uint8_t nvm_status(nvm_handle *handle, uint16_t block);
uint32_t nvm_entries(nvm_handle *handle);
uint8_t nvm_ram(nvm_handle *handle, uint16_t block, uint8_t *into, size_t room, size_t *size);
uint8_t nvm_given(nvm_handle *handle, uint8_t *into, size_t room, size_t *size);
/* The line of the last entry, as the program prints it, with its newline. Each call adds one entry at most: who takes the line behind each
   call by which nvm_entries grew has the history. The line of a start-up is as long as what it found, and is written from what stands on
   the flash: the unit keeps no content for it. So behind a start-up alone it may be 5, a further start-up failed, and 6, the memory that
   was lent held no sound image at nvm_open (a blank one is sound), and the flash was changed since. */
uint8_t nvm_line(nvm_handle *handle, uint8_t *into, size_t room, size_t *size);

/* Whether a block's RAM is valid, 1 or 0; 0 too of a block without RAM, and where there is no such block. */
uint8_t nvm_ram_is_valid(nvm_handle *handle, uint16_t block);

/* What the unit's configuration says of a block, by its keys; a flag is 0 or 1. What lies there before doesn't matter. */
enum { NVM_KIND_NATIVE = 0, NVM_KIND_REDUNDANT = 1, NVM_KIND_DATASET = 2 };
enum { NVM_RAM_NONE = 0, NVM_RAM_PERMANENT = 1, NVM_RAM_SYNC = 2 };
typedef struct {
    uint32_t roms;      /* ROM datasets, behind the stored ones */
    uint16_t length;
    uint8_t kind;
    uint8_t nv;         /* stored datasets, 0 for the other kinds */
    uint8_t ram, has_defaults, in_readall, in_writeall, write_once, write_protected, resistant;
    uint8_t priority, reads, writes, repeats, device;
} nvm_block_facts;

/* 0 it stands in facts; 1 there is no block of this id, and they stay as they are. It reads no text and takes no memory. */
uint8_t nvm_block(nvm_handle *handle, uint16_t block, nvm_block_facts *facts);

void nvm_close(nvm_handle *handle, nvm_memory *back);

/* Of the text of a configuration, without a unit. 0 it is one; 1 it breaks a rule, the first by its number in docs/CONFIGURATION.md, at a
   block, or at 0 where the rule isn't about one; 4 no memory to say. At 0 and 4 both are 0. */
uint8_t nvm_check(const uint8_t *text, size_t text_length, uint8_t *rule, uint16_t *block);

#ifdef __cplusplus
}
#endif

#endif
