/* One exchange drawn at random and tried with every check of a soak. */
#ifndef TRYING_H
#define TRYING_H

#include "trial.h"

/* Draws the exchange with this number and checks what the library makes of it. False on the first failure. */
bool trial_run(struct trial *trial, uint64_t seed, uint64_t number);

#endif
