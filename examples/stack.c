/* The stack that each function takes: it runs on a stack of its own, filled with a pattern, and the lowest byte that lost it tells. The
 * ledger has the most replicas, slots and blocks, the lists are the longest; of yard_call the most that any call took counts. Its status is
 * 1 if yard.h says less than was found, or over 256 bytes more. */
#define _XOPEN_SOURCE 700
#include "yard.h"

#include <stdio.h>
#include <string.h>
#include <ucontext.h>

enum { QUORUM = YARD_QUORUM(YARD_MAX_F), TABLE = YARD_TABLE_WORDS(YARD_MAX_F), LAST = YARD_MAX_BLOCKS - 1 };
enum { LOG = YARD_MAX_CERTIFICATES * YARD_CERTIFICATE_WORDS, BLOCKS = YARD_MAX_BLOCKS * YARD_BLOCK_WORDS };
enum { MOVEMENTS = YARD_MAX_MOVEMENTS * YARD_MOVEMENT_WORDS };
enum { LAST_PLACE = YARD_MAX_MOVEMENTS - 1, IDENTITIES = YARD_MAX_WAITING };
enum { STACK = 1 << 16, PATTERN = 0xa5, SLACK = 256 };

static uint32_t table[TABLE], log_words[LOG], blocks[BLOCKS], movements[MOVEMENTS], waiting[YARD_WAITING_WORDS];

/* What a function on the measured stack is given, and what it gives. */
static uint32_t code, replica, number, list[YARD_MAX_LIST], answer, first, second;
static size_t length;
static int32_t balance;
static uint8_t columns[YARD_COLUMNS];

static unsigned char stack[STACK], *top;
static ucontext_t here, there;
static int wrong;

static void run_version(void) {
    top = (unsigned char *)__builtin_frame_address(0);
    answer = yard_version();
}

static void run_call(void) {
    top = (unsigned char *)__builtin_frame_address(0);
    answer = yard_call(code, replica, number, list, length, table, TABLE, log_words, LOG, blocks, BLOCKS, &first, &second);
}

static void run_panel(void) {
    top = (unsigned char *)__builtin_frame_address(0);
    answer = yard_panel(table, TABLE, log_words, LOG, blocks, BLOCKS, replica, &first);
}

static void run_balance(void) {
    top = (unsigned char *)__builtin_frame_address(0);
    answer = yard_balance(table, TABLE, log_words, LOG, blocks, BLOCKS, movements, MOVEMENTS, LAST, replica, &balance);
}

static void run_open_waiting(void) {
    top = (unsigned char *)__builtin_frame_address(0);
    answer = yard_open_waiting(YARD_MAX_F, list, length, table, TABLE, log_words, LOG, blocks, BLOCKS, waiting, YARD_WAITING_WORDS, &first);
}

/* The number is the identity. */
static void run_enter(void) {
    top = (unsigned char *)__builtin_frame_address(0);
    answer = yard_enter(table, TABLE, log_words, LOG, blocks, BLOCKS, waiting, YARD_WAITING_WORDS, number, 0, 1, YARD_MAX_PALLETS);
}

static void run_withdraw(void) {
    top = (unsigned char *)__builtin_frame_address(0);
    answer = yard_withdraw(table, TABLE, log_words, LOG, blocks, BLOCKS, waiting, YARD_WAITING_WORDS, number);
}

static void run_match(void) {
    top = (unsigned char *)__builtin_frame_address(0);
    answer = yard_match(table, TABLE, log_words, LOG, blocks, BLOCKS, waiting, YARD_WAITING_WORDS, movements, MOVEMENTS, replica, number,
                        LAST_PLACE);
}

static void run_ask(void) {
    top = (unsigned char *)__builtin_frame_address(0);
    answer = yard_ask(table, TABLE, log_words, LOG, blocks, BLOCKS, waiting, YARD_WAITING_WORDS, replica, &first, &second);
}

static void run_read_number(void) {
    top = (unsigned char *)__builtin_frame_address(0);
    answer = yard_read_number(columns, YARD_COLUMNS);
}

static void run_write_number(void) {
    top = (unsigned char *)__builtin_frame_address(0);
    answer = yard_write_number(number, columns, YARD_COLUMNS);
}

/* The bytes of stack that a function took; its answer must be the expected one. */
static long taken(void (*function)(void), uint32_t expected) {
    memset(stack, PATTERN, STACK);
    getcontext(&there);
    there.uc_stack.ss_sp = stack;
    there.uc_stack.ss_size = STACK;
    there.uc_link = &here;
    makecontext(&there, function, 0);
    swapcontext(&here, &there);
    if (answer != expected)
        wrong = 1;
    const unsigned char *lowest = stack;
    while (*lowest == PATTERN)
        lowest++;
    return top - lowest;
}

/* The most that a call took so far. */
static long most;

static void call(uint32_t its_code, uint32_t its_replica, uint32_t its_number, size_t its_length, uint32_t expected) {
    code = its_code;
    replica = its_replica;
    number = its_number;
    length = its_length;
    long found = taken(run_call, expected);
    if (found > most)
        most = found;
}

/* The list becomes numbers that follow one another. */
static void count_from(uint32_t start) {
    for (uint32_t i = 0; i < YARD_MAX_LIST; i++)
        list[i] = start + i;
}

/* Every replica of a quorum makes the call. */
static void quorum_calls(uint32_t its_code, uint32_t from, uint32_t its_number) {
    for (uint32_t r = from; r < from + QUORUM; r++)
        call(its_code, r, its_number, 0, YARD_ACCEPTED);
}

/* A decision, and a proposal on its COMMITs. */
static void decide(void) {
    for (uint32_t k = 0; k < YARD_STEPS; k++)
        list[k] = 64;
    call(YARD_CALL_OPEN, YARD_MAX_F, 0, 0, YARD_ACCEPTED);
    call(YARD_CALL_OPEN, YARD_MAX_F, 0, YARD_STEPS, YARD_ACCEPTED);
    quorum_calls(YARD_CALL_VIEW, 0, 1);
    count_from(0);
    call(YARD_CALL_ACCUMULATE, 0, 0, QUORUM, YARD_ACCEPTED);
    call(YARD_CALL_ACCUMULATE, 0, 0, QUORUM, YARD_ACCEPTED);
    list[0] = first;
    call(YARD_CALL_BLOCK, 0, 0, 0, YARD_ACCEPTED);
    call(YARD_CALL_PREPARE_ON_ACC, 0, 1, 1, YARD_ACCEPTED);
    call(YARD_CALL_PREPARE_ON_ACC, 0, 1, 1, YARD_REFUSED_VIEW);
    count_from(list[0] + 2);
    quorum_calls(YARD_CALL_STORE, 0, list[0] - 1);
    call(YARD_CALL_DECIDE, 0, 0, QUORUM, YARD_ACCEPTED);
    call(YARD_CALL_BLOCK, 0, 1, 0, YARD_ACCEPTED);
    call(YARD_CALL_PREPARE_ON_COMMITS, 1, 2, QUORUM, YARD_ACCEPTED);
    call(YARD_CALL_PREPARE_ON_COMMITS, 1, 2, QUORUM, YARD_REFUSED_VIEW);
}

/* A cut and a recovery; and calls that are refused as late as they can be. */
static void recover(void) {
    call(YARD_CALL_REBOOT, 0, 0, 0, YARD_ACCEPTED);
    call(YARD_CALL_RESERVE, 0, 0, 0, YARD_ACCEPTED);
    call(YARD_CALL_REQUEST, 0, 0, 0, YARD_ACCEPTED);
    count_from(first + 1);
    quorum_calls(YARD_CALL_REPLY, 1, first);
    call(YARD_CALL_RECOVER, 0, 0, QUORUM, YARD_ACCEPTED);
    call(YARD_CALL_RECOVER, 0, 0, QUORUM, YARD_REFUSED_STATUS);
    list[QUORUM - 1] = list[0];
    call(YARD_CALL_DECIDE, 0, 0, QUORUM, YARD_REFUSED_CERTIFICATE);
    call(YARD_CALL_RECOVER + 1, 0, 0, QUORUM, YARD_REFUSED_UNREADABLE);
}

/* The longest line, from a block up to the last, and the most movements. */
static void fill(uint32_t from) {
    for (uint32_t parent = from; parent < LAST; parent++)
        if (yard_call(YARD_CALL_BLOCK, 0, parent, NULL, 0, table, TABLE, log_words, LOG, blocks, BLOCKS, &first, &second) != YARD_ACCEPTED)
            wrong = 1;
    for (uint32_t m = 0; m < MOVEMENTS; m += YARD_MOVEMENT_WORDS) {
        movements[m + YARD_MOVEMENT_BLOCK] = LAST;
        movements[m + YARD_MOVEMENT_TAKER] = 1;
        movements[m + YARD_MOVEMENT_PALLETS] = YARD_MAX_PALLETS;
    }
}

static void hold(const char *name, long found, long stated) {
    printf("%s: %ld bytes of stack, yard.h says %ld\n", name, found, stated);
    if (stated < found || stated > found + SLACK)
        wrong = 1;
}

/* The larger of two. */
static long larger(long one, long other) { return one > other ? one : other; }

/* As many entries as may wait, the last of which leaves by the longest line and the first by a withdrawal. The table is opened anew, so
 * replica 0 gets its decided block from here: it stands in for a decision. */
static void wait_and_match(void) {
    long of_open, of_enter = 0, of_match;
    count_from(64);
    length = YARD_STEPS;
    of_open = taken(run_open_waiting, YARD_ACCEPTED);
    for (number = 1; number <= IDENTITIES; number++)
        of_enter = larger(of_enter, taken(run_enter, YARD_ACCEPTED));
    of_enter = larger(of_enter, taken(run_enter, YARD_REFUSED_FULL));
    hold("yard_open_waiting", of_open, YARD_OPEN_WAITING_STACK);
    hold("yard_enter", of_enter, YARD_ENTER_STACK);
    fill(0);
    table[YARD_ROW(0) + YARD_ROW_DECIDED_BLOCK] = LAST;
    movements[LAST_PLACE * YARD_MOVEMENT_WORDS + YARD_MOVEMENT_BLOCK] = 1;
    replica = 0;
    number = IDENTITIES;
    of_match = taken(run_match, YARD_ACCEPTED);
    hold("yard_match", larger(of_match, taken(run_match, YARD_REFUSED_IDENTITY)), YARD_MATCH_STACK);
    number = 1;
    hold("yard_withdraw", taken(run_withdraw, YARD_ACCEPTED), YARD_WITHDRAW_STACK);
    replica = 1;
    hold("yard_ask", taken(run_ask, YARD_ACCEPTED), YARD_ASK_STACK);
    if (first != (IDENTITIES - 2) * YARD_MAX_PALLETS || second != 2)
        wrong = 1;
}

int main(void) {
    hold("yard_version", taken(run_version, YARD_VERSION), YARD_VERSION_STACK);
    decide();
    recover();
    hold("yard_call", most, YARD_CALL_STACK);
    fill(2);
    replica = 0;
    hold("yard_panel", taken(run_panel, YARD_ACCEPTED), YARD_PANEL_STACK);
    replica = 1;
    hold("yard_balance", taken(run_balance, YARD_ACCEPTED), YARD_BALANCE_STACK);
    if (balance != YARD_MAX_BALANCE)
        wrong = 1;
    wait_and_match();
    number = YARD_MAX_NUMBER;
    hold("yard_write_number", taken(run_write_number, YARD_ACCEPTED), YARD_WRITE_NUMBER_STACK);
    hold("yard_read_number", taken(run_read_number, YARD_MAX_NUMBER), YARD_READ_NUMBER_STACK);
    return wrong;
}
