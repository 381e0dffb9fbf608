/* Every function that omh.h declares, with its type, as FUNCTION(name, answer, parameters). */
FUNCTION(omh_read_at, int32_t, (size_t, int32_t))
FUNCTION(omh_wrap, int32_t, (int32_t))
FUNCTION(omh_unwrap, int32_t, (int32_t))
FUNCTION(omh_majority, int32_t, (const int32_t *, size_t))
FUNCTION(omh_settings_refused, uint8_t, (size_t, size_t, size_t, size_t))
FUNCTION(omh_slot_of, uint8_t, (size_t, size_t, size_t, size_t, size_t *))
FUNCTION(omh_slot_above, uint8_t, (size_t, size_t *))
FUNCTION(omh_is_live, uint8_t, (size_t, size_t, size_t, size_t, size_t, int32_t *))
FUNCTION(omh_vote_at, uint8_t, (size_t, size_t, size_t, size_t, const int32_t *, size_t, size_t, int32_t *))
FUNCTION(omh_open, uint8_t, (size_t, size_t, size_t, size_t, int32_t *, size_t, int32_t *, size_t))
FUNCTION(omh_enter, uint8_t, (size_t, size_t, size_t, size_t, int32_t *, size_t, int32_t *, size_t, size_t, int32_t))
FUNCTION(omh_refill, uint8_t, (size_t, size_t, size_t, size_t, const int32_t *, size_t, int32_t *, size_t))
FUNCTION(omh_held_answer, uint8_t, (const int32_t *, size_t, const int32_t *, size_t, int32_t *))
FUNCTION(omh_books_open, uint8_t, (size_t, size_t, size_t, size_t, int32_t *, size_t))
FUNCTION(omh_books_enter, uint8_t, (size_t, size_t, size_t, size_t, int32_t *, size_t, size_t, int32_t))
FUNCTION(omh_books_refill, uint8_t, (size_t, size_t, size_t, size_t, int32_t *, size_t))
FUNCTION(omh_next_exchange, uint16_t, (uint16_t))
FUNCTION(omh_age, uint16_t, (uint16_t, uint16_t))
FUNCTION(omh_age_class, uint8_t, (uint16_t, uint16_t))
FUNCTION(omh_read_frame, uint8_t, (const uint8_t *, size_t, int32_t *))
FUNCTION(omh_write_frame, uint8_t,
         (uint16_t, uint8_t, uint8_t, uint8_t, uint8_t, uint8_t, uint8_t, int32_t, uint8_t *, size_t))
FUNCTION(omh_enter_frame, uint8_t,
         (size_t, size_t, size_t, size_t, int32_t *, size_t, int32_t *, size_t, uint16_t, const uint8_t *, size_t))
FUNCTION(omh_books_enter_frame, uint8_t,
         (size_t, size_t, size_t, size_t, int32_t *, size_t, uint16_t, const uint8_t *, size_t))
FUNCTION(omh_word_for, uint8_t,
         (size_t, size_t, size_t, int32_t, const uint8_t *, size_t, const int32_t *, size_t, size_t, size_t, int32_t *))
FUNCTION(omh_answer_for, uint8_t,
         (size_t, size_t, size_t, int32_t, const uint8_t *, size_t, const int32_t *, size_t, size_t, int32_t *))
FUNCTION(omh_all_answers, uint8_t,
         (size_t, size_t, size_t, int32_t, const uint8_t *, size_t, const int32_t *, size_t, int32_t *, size_t))
FUNCTION(omh_fill, uint8_t,
         (size_t, size_t, size_t, int32_t, const uint8_t *, size_t, const int32_t *, size_t, size_t,
          int32_t *, size_t, int32_t *, size_t))
FUNCTION(omh_bound, uint8_t, (size_t, size_t, const uint8_t *, size_t, int32_t *))
FUNCTION(omh_outcome_start, uint8_t, (int32_t *, size_t))
FUNCTION(omh_outcome_set, uint8_t,
         (size_t, size_t, size_t, int32_t, const uint8_t *, size_t, const int32_t *, size_t, int32_t *, size_t))
FUNCTION(omh_list, size_t, (const uint8_t *, size_t, uint8_t *))
