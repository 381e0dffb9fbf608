/* Answers and the bound, under trial in a soak. */
#ifndef ANSWERING_H
#define ANSWERING_H

#include "trial.h"

/* All answers, which stay with the trial, are those asked for singly; the bound
   is as counted here, and within it the good cards answer what they should. */
bool answering_is_right(struct trial *trial);

#endif
