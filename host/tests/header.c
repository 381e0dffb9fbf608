/* omh.h seen from C: each function has the type of functions.h, and the archive has each. Prints their names. */
#include "../omh.h"

#include <stdio.h>

#define FUNCTION(name, answer, parameters) \
    _Static_assert(_Generic(&(name), answer (*) parameters: 1, default: 0), #name " has another type");
#include "functions.h"
#undef FUNCTION

/* Kept by the linker, which must find them all. */
#define FUNCTION(name, answer, parameters) static answer (*volatile use_##name) parameters = name;
#include "functions.h"
#undef FUNCTION

int main(void)
{
#define FUNCTION(name, answer, parameters) \
    if (use_##name != NULL)                \
        puts(#name);
#include "functions.h"
    return 0;
}
