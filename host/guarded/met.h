/* Which answers of which function of the face have been met. */
#ifndef MET_H
#define MET_H

#include <stdint.h>

void meet(const char *function, uint32_t result);

/* Expects that each function has given every number that it can give, and no other. */
void expect_all_met(void);

#endif
