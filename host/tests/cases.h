/*
 * Cases beside the drives: readings, desks and journals that a drive does not come by.
 *
 * Where the rules say beforehand what has to come of a case, it is written there too: so a fault that the call and the
 * model have in common shows.
 */
#ifndef FOLDHARBOR_CASES_H
#define FOLDHARBOR_CASES_H

#include "dice.h"

void compare_cases(struct dice *dice);

#endif
