/* Refusals where frames are made, read or entered. */
#include "frame_refusals.h"

#include "fields.h"
#include "path.h"
#include "reasons.h"

#include <inttypes.h>

enum { LAST_CARD = OMH_CARDS - 1 };

/* ---- what a line has before its colon */

static void print_number(uint8_t number, uint64_t line)
{
    printf("refused %u", (unsigned)number);
    if (line > 0)
        printf(" line %" PRIu64, line);
}

static void print_path(const int32_t fields[OMH_FIELDS])
{
    fputs(" path", stdout);
    fields_print_path(fields);
}

/* A frame's fields but the word, which is never wrong. */
static void fields_in(const struct bytes *frame, int32_t fields[OMH_FIELDS])
{
    fields[OMH_EXCHANGE] = (int32_t)bytes_number(frame, 5, 2);
    for (size_t i = OMH_SENDER; i <= OMH_RECEIVER; i++)
        fields[i] = frame->at[6 + i];
}

/* Begins the line of a frame that was not read or not entered, up to the reason. */
static void begin(uint8_t number, uint64_t line, const struct bytes *frame, int32_t fields[OMH_FIELDS])
{
    fields_in(frame, fields);
    print_number(number, line);
    if (number != OMH_REFUSED_SIZE && number != OMH_REFUSED_MARK && number != OMH_REFUSED_VERSION)
        print_path(fields);
    fputs(": ", stdout);
}

/* ---- the reasons */

static void print_over(size_t field, int32_t value, int most)
{
    printf("%s is %" PRId32 ", over %d", field_names[field], value, most);
}

/* Whether relay i, from 0, is not well formed; prints why. */
static bool print_relay_form_reason(const int32_t fields[OMH_FIELDS], int32_t i)
{
    size_t field = (size_t)(OMH_Q1 + i);
    int32_t level = fields[OMH_LEVEL], relay = fields[field];
    bool used = i < level;
    if (used ? relay <= LAST_CARD : relay == OMH_NO_RELAY)
        return false;
    if (used)
        print_over(field, relay, LAST_CARD);
    else
        printf("%s is %" PRId32 ", not %d", field_names[field], relay, OMH_NO_RELAY);
    printf(", and level %" PRId32 " %s it", level, used ? "uses" : "does not use");
    return true;
}

/* The first field that is not well formed. */
static void print_form_reason(const int32_t fields[OMH_FIELDS])
{
    if (fields[OMH_SENDER] > LAST_CARD) {
        print_over(OMH_SENDER, fields[OMH_SENDER], LAST_CARD);
        return;
    }
    if (fields[OMH_LEVEL] > OMH_ROUNDS) {
        print_over(OMH_LEVEL, fields[OMH_LEVEL], OMH_ROUNDS);
        return;
    }
    for (int32_t i = 0; i < OMH_ROUNDS; i++)
        if (print_relay_form_reason(fields, i))
            return;
    print_over(OMH_RECEIVER, fields[OMH_RECEIVER], LAST_CARD);
}

static void print_reading_reason(uint8_t number, const struct bytes *frame, const int32_t fields[OMH_FIELDS])
{
    switch (number) {
    case OMH_REFUSED_SIZE:
        printf("the frame's length is %" PRIu64 ", not %d bytes", frame->count, OMH_FRAME);
        break;
    case OMH_REFUSED_MARK:
        printf("the mark is %06" PRIX32 ", not 4F4D48", bytes_number(frame, 0, 3));
        break;
    case OMH_REFUSED_VERSION:
        printf("the version is %" PRIu32 ", not 1", bytes_number(frame, 3, 2));
        break;
    case OMH_REFUSED_FORM:
        print_form_reason(fields);
        break;
    default:
        print_unknown_reason(stdout);
    }
}

static void print_age_reason(uint16_t exchange, uint16_t current)
{
    bool old = omh_age_class(current, exchange) == OMH_REFUSED_OLD;
    unsigned by = old ? omh_age(current, exchange) : omh_age(exchange, current);
    printf("EXCHANGE is %u, %s by %u: the current is %u",
           (unsigned)exchange, old ? "old" : "ahead", by, (unsigned)current);
}

static void print_foreign_reason(const int32_t fields[OMH_FIELDS], const struct settings *s)
{
    if ((size_t)fields[OMH_SENDER] >= s->n)
        printf("SENDER is %" PRId32 ", and the last card is %zu", fields[OMH_SENDER], s->n - 1);
    else if ((size_t)fields[OMH_SENDER] != s->t)
        printf("SENDER is %" PRId32 ", the book's is %zu", fields[OMH_SENDER], s->t);
    else
        printf("RECEIVER is %" PRId32 ", the book's is %zu", fields[OMH_RECEIVER], s->p);
}

static void print_live_reason(const int32_t fields[OMH_FIELDS], const struct settings *s)
{
    struct path path = {(uint8_t)fields[OMH_LEVEL],
                        {(uint8_t)fields[OMH_Q1], (uint8_t)fields[OMH_Q2], (uint8_t)fields[OMH_Q3]}};
    print_path_reason(s, &path, stdout);
}

/* ---- the lines */

void print_not_opened(uint8_t number, const struct settings *s)
{
    print_number(number, 0);
    fputs(": ", stdout);
    print_settings_reason(number, s, stdout);
    putchar('\n');
}

void print_not_made(uint8_t number, const int32_t fields[OMH_FIELDS])
{
    print_number(number, 0);
    print_path(fields);
    fputs(": ", stdout);
    print_form_reason(fields);
    putchar('\n');
}

void print_not_read(uint8_t number, uint64_t line, const struct bytes *frame)
{
    int32_t fields[OMH_FIELDS];
    begin(number, line, frame, fields);
    print_reading_reason(number, frame, fields);
    putchar('\n');
}

void print_not_entered(uint8_t number, uint64_t line, const struct bytes *frame,
                       const struct settings *s, uint16_t current)
{
    int32_t fields[OMH_FIELDS];
    begin(number, line, frame, fields);
    switch (number) {
    case OMH_REFUSED_OLD:
    case OMH_REFUSED_AHEAD:
        print_age_reason((uint16_t)fields[OMH_EXCHANGE], current);
        break;
    case OMH_REFUSED_FOREIGN:
        print_foreign_reason(fields, s);
        break;
    case OMH_REFUSED_PATH:
        print_live_reason(fields, s);
        break;
    default:
        print_reading_reason(number, frame, fields);
    }
    putchar('\n');
}
