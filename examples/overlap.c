/* What overlap does. Here the first value of some calls is written into the table that the same call is lent, which yard.h forbids: a
 * refused call then changes a word, one replica proposes twice in a view, another stores twice in it, and two rival blocks are decided. Its
 * status is 1 if a call was not answered as it is written here. */
#include "yard.h"

#include <stdio.h>

enum { TABLE = YARD_TABLE_WORDS(1), LOG = 16 * YARD_CERTIFICATE_WORDS, BLOCKS = 4 * YARD_BLOCK_WORDS };

static uint32_t table[TABLE], log_words[LOG], blocks[BLOCKS];

static int wrong;

/* Makes a call, whose answer must be the expected one, with its first value at a place that the caller chooses. */
static void call(uint32_t code, uint32_t replica, uint32_t number, const uint32_t *list, size_t length, uint32_t *first,
                 uint32_t expected) {
    uint32_t second;
    if (yard_call(code, replica, number, list, length, table, TABLE, log_words, LOG, blocks, BLOCKS, first, &second) != expected)
        wrong = 1;
}

/* Replica 0 enters view 1, which it leads, with replica 1, and accumulates: ACC 2. Blocks 1 and 2 are rivals on block 0. */
static void begin(void) {
    const uint32_t views[] = {0, 1};
    uint32_t first;
    call(YARD_CALL_OPEN, 1, 0, NULL, 0, &first, YARD_ACCEPTED);
    call(YARD_CALL_VIEW, 0, 1, NULL, 0, &first, YARD_ACCEPTED);
    call(YARD_CALL_VIEW, 1, 1, NULL, 0, &first, YARD_ACCEPTED);
    call(YARD_CALL_ACCUMULATE, 0, 0, views, 2, &first, YARD_ACCEPTED);
    call(YARD_CALL_BLOCK, 0, 0, NULL, 0, &first, YARD_ACCEPTED);
    call(YARD_CALL_BLOCK, 0, 0, NULL, 0, &first, YARD_ACCEPTED);
}

static void propose_twice(void) {
    const uint32_t acc[] = {2};
    uint32_t first, *flag = &table[YARD_ROW(0) + YARD_ROW_FLAG];
    call(YARD_CALL_PREPARE_ON_ACC, 0, 1, acc, 1, &first, YARD_ACCEPTED);
    printf("replica 0 proposes block 1 in view 1: PROP %u, flag %u\n", first, *flag);
    call(YARD_CALL_PREPARE_ON_ACC, 0, 2, acc, 1, &first, YARD_REFUSED_VIEW);
    printf("block 2 in view 1: refused, flag %u\n", *flag);
    call(YARD_CALL_PREPARE_ON_ACC, 0, 2, acc, 1, flag, YARD_REFUSED_VIEW);
    printf("the same, first value at the flag: refused, flag %u\n", *flag);
    call(YARD_CALL_PREPARE_ON_ACC, 0, 2, acc, 1, &first, YARD_ACCEPTED);
    printf("block 2 in view 1: PROP %u\n\n", first);
}

/* Replicas 0 and 1 store PROP 3 and replica 0 decides; replica 2 stores PROP 4. Now replica 1 stores PROP 4 too: the 0 of a refused call
 * goes to its stored view, and the 1 of a decide of block 1 to its lowest view. */
static void store_twice(void) {
    const uint32_t commits[] = {5, 6};
    uint32_t first, *stored = &table[YARD_ROW(1) + YARD_ROW_STORED_VIEW], *lowest = &table[YARD_ROW(1) + YARD_ROW_LOWEST_VIEW];
    call(YARD_CALL_STORE, 0, 3, NULL, 0, &first, YARD_ACCEPTED);
    call(YARD_CALL_STORE, 1, 3, NULL, 0, &first, YARD_ACCEPTED);
    printf("replica 1 stores PROP 3: COMMIT %u, stored view %u, lowest view %u\n", first, *stored, *lowest);
    call(YARD_CALL_DECIDE, 0, 0, commits, 2, &first, YARD_ACCEPTED);
    call(YARD_CALL_STORE, 2, 4, NULL, 0, &first, YARD_ACCEPTED);
    call(YARD_CALL_STORE, 1, 4, NULL, 0, stored, YARD_REFUSED_VIEW);
    printf("PROP 4, first value at the stored view: refused, stored view %u, lowest view %u\n", *stored, *lowest);
    call(YARD_CALL_DECIDE, 0, 0, commits, 2, lowest, YARD_ACCEPTED);
    printf("block 1 decided again, first value at the lowest view: stored view %u, lowest view %u\n", *stored, *lowest);
    call(YARD_CALL_STORE, 1, 4, NULL, 0, &first, YARD_ACCEPTED);
    printf("PROP 4: COMMIT %u\n\n", first);
}

/* Replica 2 decides by the COMMITs of PROP 4. */
static void decide_the_rival(void) {
    const uint32_t commits[] = {7, 8};
    uint32_t first, height;
    call(YARD_CALL_DECIDE, 2, 0, commits, 2, &first, YARD_ACCEPTED);
    for (uint32_t replica = 0; replica <= 2; replica += 2) {
        if (yard_panel(table, TABLE, log_words, LOG, blocks, BLOCKS, replica, &height) != YARD_ACCEPTED)
            wrong = 1;
        printf("replica %u decided block %u, height %u\n", replica, table[YARD_ROW(replica) + YARD_ROW_DECIDED_BLOCK], height);
    }
}

int main(void) {
    begin();
    propose_twice();
    store_twice();
    decide_the_rival();
    return wrong;
}
