/* What a test may ask of the stand-in of the proved library. */
#ifndef FAKE_NVM_C_H
#define FAKE_NVM_C_H

#include <stdint.h>

void fake_fail(unsigned nth);               /* the nth call from now that can fail for want of memory does; 0 for none */
int fake_has_failed(void);                  /* whether it came */
void fake_next_result(uint8_t result);      /* the next job that is posted, of one block or a member, ends with it: 1 or 7 */
extern unsigned fake_opened;                /* units that are open */

#endif
