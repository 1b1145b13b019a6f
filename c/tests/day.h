/* A day of the unit of unit.json, and what is found behind it. */
#ifndef DAY_H
#define DAY_H

void begin_day(void);
void day(void);     /* of a unit that is up */
void look(void);    /* behind it, when nothing fails any more: each block holds what was acknowledged last, or was asked for since */

#endif
