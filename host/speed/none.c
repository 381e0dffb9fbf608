/* Functions that return at once and look at no argument: what a call of them costs is the harness's own. */
#include <stddef.h>
#include <stdint.h>

int32_t none_majority() { return 0; }
uint8_t none_vote_at() { return 0; }
uint8_t none_open() { return 0; }
uint8_t none_enter() { return 0; }
uint8_t none_enter_frame() { return 0; }
uint8_t none_refill() { return 0; }
uint8_t none_books_open() { return 0; }
uint8_t none_books_enter() { return 0; }
uint8_t none_books_enter_frame() { return 0; }
uint8_t none_books_refill() { return 0; }
uint8_t none_word_for() { return 0; }
uint8_t none_fill() { return 0; }
uint8_t none_answer_for() { return 0; }
uint8_t none_all_answers() { return 0; }
uint8_t none_outcome_start() { return 0; }
uint8_t none_outcome_set() { return 0; }
size_t none_list() { return 0; }
