/* Balances of three firms in C: agree on block 1, then on block 2 on top of it, and net a list of movements at both. Its status is 1 if a
 * call was not answered as it should be. */
#include "yard.h"

#include <stdio.h>

enum { FIRMS = 3, TABLE = YARD_TABLE_WORDS(1), LOG = 16 * YARD_CERTIFICATE_WORDS, BLOCKS = 4 * YARD_BLOCK_WORDS };

static uint32_t table[TABLE], log_words[LOG], blocks[BLOCKS];

/* Block, giver, taker, pallets. */
static const uint32_t movements[] = {
    1, 0, 1, 5,   /* in block 1 firm 0 gave 5 pallets to firm 1 */
    1, 1, 2, 3,   /* and firm 1 gave 3 to firm 2 */
    2, 2, 0, 7,   /* in block 2, on block 1, firm 2 gave 7 to firm 0 */
    3, 0, 2, 100, /* in block 3, a rival of block 2, firm 0 gave 100 to firm 2 */
};

static int wrong;

/* Makes a call that must be accepted, and gives its first value: the number of a certificate, or of a block. */
static uint32_t call(uint32_t code, uint32_t replica, uint32_t number, const uint32_t *list, size_t length) {
    uint32_t first, second;
    uint32_t answer = yard_call(code, replica, number, list, length, table, TABLE, log_words, LOG, blocks, BLOCKS, &first, &second);
    if (answer != YARD_ACCEPTED)
        wrong = 1;
    return first;
}

/* Replicas 0 and 1 store a proposal, and replica 0 decides by their two COMMITs: the block that is agreed. */
static uint32_t agree(uint32_t proposal, uint32_t commits[2]) {
    commits[0] = call(YARD_CALL_STORE, 0, proposal, NULL, 0);
    commits[1] = call(YARD_CALL_STORE, 1, proposal, NULL, 0);
    return call(YARD_CALL_DECIDE, 0, 0, commits, 2);
}

/* Every firm's balance at a block, and their sum. */
static void print_balances(uint32_t block) {
    int32_t sum = 0;
    printf("balances at block %u:", block);
    for (uint32_t firm = 0; firm < FIRMS; firm++) {
        int32_t balance;
        uint32_t answer = yard_balance(table, TABLE, log_words, LOG, blocks, BLOCKS, movements, sizeof movements / sizeof *movements, block,
                                       firm, &balance);
        if (answer != YARD_ACCEPTED)
            wrong = 1;
        printf(" firm %u %+d,", firm, balance);
        sum += balance;
    }
    printf(" sum %d\n", sum);
    if (sum != 0)
        wrong = 1;
}

int main(void) {
    uint32_t views[2], commits[2], acc, first, second;
    call(YARD_CALL_OPEN, 1, 0, NULL, 0);
    views[0] = call(YARD_CALL_VIEW, 0, 1, NULL, 0);
    views[1] = call(YARD_CALL_VIEW, 1, 1, NULL, 0);
    acc = call(YARD_CALL_ACCUMULATE, 0, 0, views, 2);
    first = call(YARD_CALL_BLOCK, 0, 0, NULL, 0);
    first = agree(call(YARD_CALL_PREPARE_ON_ACC, 0, first, &acc, 1), commits);
    second = call(YARD_CALL_BLOCK, 0, first, NULL, 0);
    call(YARD_CALL_BLOCK, 0, first, NULL, 0); /* the rival: it is added, and never decided */
    /* Replica 1 leads view 2, which the COMMITs of view 1 justify. */
    second = agree(call(YARD_CALL_PREPARE_ON_COMMITS, 1, second, commits, 2), commits);
    print_balances(first);
    print_balances(second);

    const uint32_t broken[] = {1, 0, 1, YARD_MAX_PALLETS + 1};
    int32_t balance;
    uint32_t answer = yard_balance(table, TABLE, log_words, LOG, blocks, BLOCKS, broken, YARD_MOVEMENT_WORDS, second, 0, &balance);
    printf("a movement of 10,001 pallets: answer %u, balance %d\n", answer, balance);
    if (answer != YARD_REFUSED_MOVEMENT || balance != 0)
        wrong = 1;
    return wrong;
}
