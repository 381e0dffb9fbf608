/* One exchange under trial in a soak. */
#include "trial.h"

bool is_due(struct trial *trial, const char *what, int64_t got, int64_t due)
{
    if (got == due)
        return true;
    trial->failure = what;
    trial->got = got;
    trial->due = due;
    return false;
}
