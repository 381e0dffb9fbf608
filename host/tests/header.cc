// omh.h seen from C++: each function has the type of functions.h, and the archive has each. Prints their names.
#include "../omh.h"

#include <cstdio>
#include <type_traits>

#define FUNCTION(name, answer, parameters) \
    static_assert(std::is_same<decltype(&name), answer(*) parameters>::value, #name " has another type");
#include "functions.h"
#undef FUNCTION

// Kept by the linker, which must find them all.
#define FUNCTION(name, answer, parameters) static answer(*volatile use_##name) parameters = name;
#include "functions.h"
#undef FUNCTION

int main()
{
#define FUNCTION(name, answer, parameters) \
    if (use_##name != nullptr)             \
        std::puts(#name);
#include "functions.h"
    return 0;
}
