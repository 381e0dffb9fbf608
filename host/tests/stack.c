/*
 * stack: makes the calls that standard input asks for, each on a stack of exactly the bytes that omh.h promises for its
 * function, above pages that nobody may touch. Prints for each function the most that a call took, its caller's frame
 * with it. Where a call needs more, that is said and the status is 1. A call of omh_list for a file that is refused is
 * made again on the bytes that omh.h promises for those, and counts as omh_list:refused.
 * stack NAME BYTES: the same, with other bytes for one function.
 */
#define _DEFAULT_SOURCE     /* MAP_ANONYMOUS, sigaltstack */
#include "../archive/call.h"
#include "../archive/room.h"
#include "../omh.h"

#include <signal.h>
#include <stdio.h>
#include <stdlib.h>
#include <string.h>
#include <sys/mman.h>
#include <ucontext.h>
#include <unistd.h>

enum {
    ALIGNMENT = 16,         /* of a stack */
    FENCE = 1 << 20,        /* more than any frame */
    MOST = 1 << 20,         /* bytes that a stack can be given */
    UNTOUCHED = 0xA5
};

/* What has a promise: each function, and omh_list for a file that is refused. */
enum { REFUSED = FUNCTIONS, PROMISES };

static size_t promised[] = {
    [CALL_omh_read_at] = OMH_STACK_READ_AT,
    [CALL_omh_wrap] = OMH_STACK_WRAP,
    [CALL_omh_unwrap] = OMH_STACK_UNWRAP,
    [CALL_omh_majority] = OMH_STACK_MAJORITY,
    [CALL_omh_settings_refused] = OMH_STACK_SETTINGS_REFUSED,
    [CALL_omh_slot_of] = OMH_STACK_SLOT_OF,
    [CALL_omh_slot_above] = OMH_STACK_SLOT_ABOVE,
    [CALL_omh_is_live] = OMH_STACK_IS_LIVE,
    [CALL_omh_vote_at] = OMH_STACK_VOTE_AT,
    [CALL_omh_open] = OMH_STACK_OPEN,
    [CALL_omh_enter] = OMH_STACK_ENTER,
    [CALL_omh_refill] = OMH_STACK_REFILL,
    [CALL_omh_held_answer] = OMH_STACK_HELD_ANSWER,
    [CALL_omh_books_open] = OMH_STACK_BOOKS_OPEN,
    [CALL_omh_books_enter] = OMH_STACK_BOOKS_ENTER,
    [CALL_omh_books_refill] = OMH_STACK_BOOKS_REFILL,
    [CALL_omh_next_exchange] = OMH_STACK_NEXT_EXCHANGE,
    [CALL_omh_age] = OMH_STACK_AGE,
    [CALL_omh_age_class] = OMH_STACK_AGE_CLASS,
    [CALL_omh_read_frame] = OMH_STACK_READ_FRAME,
    [CALL_omh_write_frame] = OMH_STACK_WRITE_FRAME,
    [CALL_omh_enter_frame] = OMH_STACK_ENTER_FRAME,
    [CALL_omh_books_enter_frame] = OMH_STACK_BOOKS_ENTER_FRAME,
    [CALL_omh_word_for] = OMH_STACK_WORD_FOR,
    [CALL_omh_answer_for] = OMH_STACK_ANSWER_FOR,
    [CALL_omh_all_answers] = OMH_STACK_ALL_ANSWERS,
    [CALL_omh_fill] = OMH_STACK_FILL,
    [CALL_omh_bound] = OMH_STACK_BOUND,
    [CALL_omh_outcome_start] = OMH_STACK_OUTCOME_START,
    [CALL_omh_outcome_set] = OMH_STACK_OUTCOME_SET,
    [CALL_omh_list] = OMH_STACK_LIST,
    [REFUSED] = OMH_STACK_REFUSED,
};
_Static_assert(sizeof promised / sizeof promised[0] == PROMISES, "a function has no promise");

static const char *name_of(int which)
{
    return which == REFUSED ? "omh_list:refused" : function_name((enum function)which);
}

static uint8_t *stack;              /* the lowest byte of all stacks, behind the fence */
static ucontext_t home, away;
static struct request request;
static int held;                    /* the promise that the call is held to */

static void run(void)
{
    call(&request);
}

/* Makes the call on a stack of these bytes; answers how many of them it touched. */
static size_t touched_by_call(size_t bytes)
{
    memset(stack, UNTOUCHED, bytes);
    away.uc_stack.ss_sp = stack;
    away.uc_stack.ss_size = bytes;
    away.uc_link = &home;
    makecontext(&away, run, 0);
    swapcontext(&home, &away);
    size_t untouched = 0;
    while (untouched < bytes && stack[untouched] == UNTOUCHED)
        untouched++;
    return bytes - untouched;
}

/* Whether the request was for a file that omh_list has refused. */
static bool file_refused(void)
{
    static const char line[] = "refused ";
    return request.function == CALL_omh_list
        && memcmp(room_block(&request, 1) + request.block[1].list, line, strlen(line)) == 0;
}

/* What is said of a function that touches the fence; made before its call, which leaves no stack to make it on. */
static char too_little[PROMISES][80];

static void on_fault(int signal)
{
    (void)signal;
    const char *line = too_little[held];
    ssize_t written = write(STDOUT_FILENO, line, strlen(line));
    _exit(written < 0 ? 2 : 1);
}

static void catch_faults(void)
{
    static uint8_t own[1 << 16];
    stack_t other = {.ss_sp = own, .ss_size = sizeof own};
    struct sigaction action = {.sa_handler = on_fault, .sa_flags = SA_ONSTACK};
    sigemptyset(&action.sa_mask);
    if (sigaltstack(&other, NULL) != 0 || sigaction(SIGSEGV, &action, NULL) != 0
        || sigaction(SIGBUS, &action, NULL) != 0) {
        perror("stack: no handler for faults");
        exit(2);
    }
    for (int i = 0; i < PROMISES; i++)
        snprintf(too_little[i], sizeof too_little[i], "%s needs more than %zu bytes of stack\n", name_of(i),
                 promised[i]);
}

static void make_stack(void)
{
    uint8_t *fence = mmap(NULL, FENCE + MOST, PROT_NONE, MAP_PRIVATE | MAP_ANONYMOUS, -1, 0);
    if (fence == MAP_FAILED || mprotect(fence + FENCE, MOST, PROT_READ | PROT_WRITE) != 0 || getcontext(&away) != 0) {
        perror("stack: no memory for stacks");
        exit(2);
    }
    stack = fence + FENCE;
}

/* Gives one function another promise; answers whether there is such a function, and it can be given. */
static bool promise(const char *name, const char *number)
{
    size_t bytes = strtoull(number, NULL, 10) / ALIGNMENT * ALIGNMENT;
    for (int i = 0; i < PROMISES; i++)
        if (strcmp(name, name_of(i)) == 0) {
            promised[i] = bytes;
            return bytes > 0 && bytes <= MOST;
        }
    return false;
}

static size_t most[PROMISES];       /* bytes that a call took */

/* Makes the call on the bytes of a promise. */
static void hold(int which)
{
    held = which;
    size_t touched = touched_by_call(promised[which]);
    if (touched > most[which])
        most[which] = touched;
}

int main(int count, char **arguments)
{
    if (count != 1 && !(count == 3 && promise(arguments[1], arguments[2]))) {
        fputs("usage: stack [NAME BYTES]\n", stderr);
        return 2;
    }
    rooms_make();
    make_stack();
    catch_faults();
    while (request_read(&request)) {
        hold((int)request.function);
        if (file_refused())
            hold(REFUSED);
    }
    for (int i = 0; i < PROMISES; i++)
        printf("%s %zu of %zu\n", name_of(i), most[i], promised[i]);
    return fflush(stdout) == 0 ? 0 : 2;
}
