/* The call that a request asks for. */
#include "call.h"

#include "../omh.h"
#include "room.h"

const char *function_name(enum function function)
{
    static const char *const names[] = {
#define FUNCTION(name, answer, parameters) #name,
#include "../tests/functions.h"
#undef FUNCTION
    };
    return names[function];
}

/* The arguments of the request r: its numbers and its lists by their order. */
#define NUMBER(type, k) ((type)r->numbers[k])
#define BYTES(k) (room_block(r, k) + r->block[k].list)
#define WORDS(k) ((int32_t *)(void *)BYTES(k))
#define SLOTS(k) ((size_t *)(void *)BYTES(k))
#define BYTE_LIST(k) BYTES(k), r->block[k].length
#define WORD_LIST(k) WORDS(k), r->block[k].length
#define SETTINGS r->numbers[0], r->numbers[1], r->numbers[2], r->numbers[3]
#define BOOK WORD_LIST(0), WORD_LIST(1)
#define BOOKS WORD_LIST(0)
#define EXCHANGE r->numbers[0], r->numbers[1], r->numbers[2], NUMBER(int32_t, 3), BYTE_LIST(0), WORD_LIST(1)

uint64_t call(const struct request *r)
{
    switch ((enum function)r->function) {
    case CALL_omh_read_at:
        return (uint64_t)omh_read_at(r->numbers[0], NUMBER(int32_t, 1));
    case CALL_omh_wrap:
        return (uint64_t)omh_wrap(NUMBER(int32_t, 0));
    case CALL_omh_unwrap:
        return (uint64_t)omh_unwrap(NUMBER(int32_t, 0));
    case CALL_omh_majority:
        return (uint64_t)omh_majority(WORD_LIST(0));
    case CALL_omh_settings_refused:
        return omh_settings_refused(SETTINGS);
    case CALL_omh_slot_of:
        return omh_slot_of(r->numbers[0], r->numbers[1], r->numbers[2], r->numbers[3], SLOTS(0));
    case CALL_omh_slot_above:
        return omh_slot_above(r->numbers[0], SLOTS(0));
    case CALL_omh_is_live:
        return omh_is_live(SETTINGS, r->numbers[4], WORDS(0));
    case CALL_omh_vote_at:
        return omh_vote_at(SETTINGS, WORD_LIST(0), r->numbers[4], WORDS(1));
    case CALL_omh_open:
        return omh_open(SETTINGS, BOOK);
    case CALL_omh_enter:
        return omh_enter(SETTINGS, BOOK, r->numbers[4], NUMBER(int32_t, 5));
    case CALL_omh_refill:
        return omh_refill(SETTINGS, BOOK);
    case CALL_omh_held_answer:
        return omh_held_answer(BOOK, WORDS(2));
    case CALL_omh_books_open:
        return omh_books_open(SETTINGS, BOOKS);
    case CALL_omh_books_enter:
        return omh_books_enter(SETTINGS, BOOKS, r->numbers[4], NUMBER(int32_t, 5));
    case CALL_omh_books_refill:
        return omh_books_refill(SETTINGS, BOOKS);
    case CALL_omh_next_exchange:
        return omh_next_exchange(NUMBER(uint16_t, 0));
    case CALL_omh_age:
        return omh_age(NUMBER(uint16_t, 0), NUMBER(uint16_t, 1));
    case CALL_omh_age_class:
        return omh_age_class(NUMBER(uint16_t, 0), NUMBER(uint16_t, 1));
    case CALL_omh_read_frame:
        return omh_read_frame(BYTE_LIST(0), WORDS(1));
    case CALL_omh_write_frame:
        return omh_write_frame(NUMBER(uint16_t, 0), NUMBER(uint8_t, 1), NUMBER(uint8_t, 2), NUMBER(uint8_t, 3),
                               NUMBER(uint8_t, 4), NUMBER(uint8_t, 5), NUMBER(uint8_t, 6), NUMBER(int32_t, 7),
                               BYTE_LIST(0));
    case CALL_omh_enter_frame:
        return omh_enter_frame(SETTINGS, BOOK, NUMBER(uint16_t, 4), BYTE_LIST(2));
    case CALL_omh_books_enter_frame:
        return omh_books_enter_frame(SETTINGS, BOOKS, NUMBER(uint16_t, 4), BYTE_LIST(1));
    case CALL_omh_word_for:
        return omh_word_for(EXCHANGE, r->numbers[4], r->numbers[5], WORDS(2));
    case CALL_omh_answer_for:
        return omh_answer_for(EXCHANGE, r->numbers[4], WORDS(2));
    case CALL_omh_all_answers:
        return omh_all_answers(EXCHANGE, WORD_LIST(2));
    case CALL_omh_fill:
        return omh_fill(EXCHANGE, r->numbers[4], WORD_LIST(2), WORD_LIST(3));
    case CALL_omh_bound:
        return omh_bound(r->numbers[0], r->numbers[1], BYTE_LIST(0), WORDS(1));
    case CALL_omh_outcome_start:
        return omh_outcome_start(WORD_LIST(0));
    case CALL_omh_outcome_set:
        return omh_outcome_set(EXCHANGE, WORD_LIST(2));
    case CALL_omh_list:
        return omh_list(BYTE_LIST(0), BYTES(1));
    case FUNCTIONS:
        break;
    }
    return 0;
}
