/* The same form with sets of cards as ten bools, handed on by value: at most what masks gain. */
#define FORM bools
#define TEN_BOOLS

#include "same.c"
