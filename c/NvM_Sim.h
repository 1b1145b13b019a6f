/* Of a virtual unit alone, and no part of the standard: its flash, power cuts on purpose, and why something was refused. C90 and C++
   read it. */
#ifndef NVM_SIM_H
#define NVM_SIM_H

#include "NvM_Types.h"
#include <stddef.h>

/* What NvM_SimFault tells. */
#define NVM_SIM_UP 0u
#define NVM_SIM_BAD_CONFIG 1u       /* the text is no configuration; NvM_SimRule tells which rule it breaks, and tools/lint why */
#define NVM_SIM_WRONG_SIZE 2u       /* the flash hasn't the configuration's size */
#define NVM_SIM_FLASH 3u            /* no flash was lent, by NvM_SimFlash or NvM_SimFile */
#define NVM_SIM_MEMORY 4u
#define NVM_SIM_SECOND_DEVICE 5u    /* the configuration has a second device */
#define NVM_SIM_CLOSED 6u
#define NVM_SIM_DOWN 7u             /* the last start-up failed; NvM_Init or NvM_SimRestart makes another one */
#define NVM_SIM_BAD_TABLE 8u        /* the table of blocks isn't the text's; tools/header makes both. NvM_SimFaultBlock tells which block */
#define NVM_SIM_SYNCHRONIZED 9u     /* the text gives a block to its application ("sync"); tools/header makes it a mirror here */

/* What NvM_SimRefusal tells beside the numbers of docs/SCRIPT.md: there was no memory for a request. */
#define NVM_SIM_NO_MEMORY 255u

#ifdef __cplusplus
extern "C" {
#endif

/* The unit's flash, before NvM_Init: so many bytes, 0xFF each where it is new, and how many power cuts may be planned. It stays there,
   and nobody else touches it, until NvM_SimClose. A unit that is up is closed first. */
void NvM_SimFlash(uint8 *flash, size_t size, uint32 cuts);
/* The same over a file, which is made where there is none, and is locked against a second unit: what a turn wrote is in the file, also
   where the process is killed. A null pointer closes the file. E_NOT_OK where the file can't be had, has another size, or is locked. */
Std_ReturnType NvM_SimFile(const char *path, size_t size, uint32 cuts);

uint8 NvM_SimFault(void);                               /* why the unit isn't up, or NVM_SIM_UP */
NvM_BlockIdType NvM_SimFaultBlock(void);                /* of which block the fault speaks, or 0 */
uint8 NvM_SimRule(void);                                /* which rule of docs/CONFIGURATION.md the text breaks, or 0 */
boolean NvM_SimIsOff(void);                             /* whether the last turn told that the power is off */
boolean NvM_SimIsIdle(void);                            /* whether nothing waits, and the last turn had nothing to do */
uint8 NvM_SimRefusal(void);                             /* why the last service was refused, by docs/SCRIPT.md, 0 for none */
boolean NvM_SimRamIsValid(NvM_BlockIdType BlockId);     /* whether a block has a RAM block that is valid */
uint32 NvM_SimEntries(void);                            /* how long the history is */
/* The power goes off in the nth changing operation from now, with so many bytes of it done. E_NOT_OK where none is planned: nth is 0, or
   as many were planned as NvM_SimFlash was told. */
Std_ReturnType NvM_SimCut(uint32 nth, uint32 keep);
Std_ReturnType NvM_SimRestart(void);                    /* the power is on again: a further start-up */
/* What is called with each line of the history, as the program prints it, without its newline; a null pointer for nothing. It comes before
   NvM_Init, so that the first start-up is told too, and the call asks for nothing itself. The line is put together in the room: one that is
   longer, as that of a start-up which found much may be, isn't told, nor is one for which there was no memory. */
void NvM_SimHistory(void (*line)(const char *text), uint8 *room, size_t size);
void NvM_SimClose(void);                                /* the flash is the caller's again */

#ifdef __cplusplus
}
#endif

#endif
