/* Why a listing file is refused. */
#include "file_refusals.h"

#include "ending.h"
#include "listing.h"
#include "reasons.h"

#include <inttypes.h>

static void say_size(const struct bytes *file)
{
    size_t exceptions = exceptions_in(file);
    fprintf(stderr, "the listing file's length is %" PRIu64 ", ", file->count);
    if (file->count < HEAD)
        fprintf(stderr, "under %d bytes", HEAD);
    else
        fprintf(stderr, "not the %zu bytes of one with %zu exceptions", HEAD + EXCEPTION * exceptions, exceptions);
}

/* The first card whose status is wrong. */
static void say_status(const struct bytes *file)
{
    size_t n = settings_in(file, 0).n, card = 0;
    while (card < n && status_in(file, card) <= OMH_MANIFEST)
        card++;
    while (card >= n && card < OMH_CARDS && status_in(file, card) == 0)
        card++;
    fprintf(stderr, "card %zu has status %u, ", card, (unsigned)status_in(file, card));
    if (card < n)
        fprintf(stderr, "over %d", OMH_MANIFEST);
    else
        fprintf(stderr, "not 0, and the last card is %zu", n - 1);
}

/* Too many exceptions, or the first that is wrong. */
static void say_exception(const struct bytes *file)
{
    size_t count = exceptions_in(file);
    if (count > MOST_EXCEPTIONS) {
        fprintf(stderr, "the listing file has %zu exceptions, over %d", count, MOST_EXCEPTIONS);
        return;
    }
    for (size_t i = 0; i < count; i++) {
        struct exception e = exception_in(file, i);
        if (e.slot >= OMH_SLOTS) {
            fprintf(stderr, "exception %zu has slot %zu, over %d", i + 1, e.slot, OMH_SLOTS - 1);
            return;
        }
        if (e.receiver >= OMH_CARDS) {
            fprintf(stderr, "exception %zu has receiver %zu, over %d", i + 1, e.receiver, OMH_CARDS - 1);
            return;
        }
    }
}

void explain_refused_file(uint8_t number, const struct bytes *file, const char *name)
{
    struct settings s = settings_in(file, 0);
    begin_message(name);
    fprintf(stderr, "refused %u: ", (unsigned)number);
    switch (number) {
    case OMH_REFUSED_SIZE:
        say_size(file);
        break;
    case OMH_REFUSED_MARK:
        fprintf(stderr, "the listing file's mark is %06" PRIX32 ", not 4F4D58", bytes_number(file, 0, 3));
        break;
    case OMH_REFUSED_VERSION:
        fprintf(stderr, "the listing file's version is %" PRIu32 ", not 1", bytes_number(file, 3, 2));
        break;
    case OMH_REFUSED_STATUS:
        say_status(file);
        break;
    case OMH_REFUSED_VALUE:
        fprintf(stderr, "X is %" PRId32 ", not %" PRId32 " to %" PRId32, value_in(file), 1 - OMH_E, OMH_E - 1);
        break;
    case OMH_REFUSED_EXCEPTION:
        say_exception(file);
        break;
    default:
        print_settings_reason(number, &s, stderr);
    }
    putc('\n', stderr);
}
