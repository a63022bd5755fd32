/* A dispatcher's day in C: movements that wait for their block. Three firms; entries come, one leaves because its movement was decided, one
 * is withdrawn, one comes again. Its status is 1 if a call was not answered as it should be. */
#include "yard.h"

#include <stdio.h>

enum { FIRMS = 3, TABLE = YARD_TABLE_WORDS(1), LOG = 16 * YARD_CERTIFICATE_WORDS, BLOCKS = 4 * YARD_BLOCK_WORDS };

static uint32_t table[TABLE], log_words[LOG], blocks[BLOCKS], waiting[YARD_WAITING_WORDS];

/* Block, giver, taker, pallets. The list only grows at its end, as a movement is known by its place. */
static const uint32_t movements[] = {
    1, 0, 1, 5,  /* place 0: in block 1 firm 0 gave 5 pallets to firm 1 */
    1, 2, 1, 10, /* place 1: and firm 2 gave 10 to firm 1 */
};

static int wrong;

static void expect(const char *what, uint32_t answer, uint32_t expected) {
    printf("%s: answer %u\n", what, answer);
    if (answer != expected)
        wrong = 1;
}

static void enter(const char *what, uint32_t identity, uint32_t giver, uint32_t taker, uint32_t pallets, uint32_t expected) {
    expect(what, yard_enter(table, TABLE, log_words, LOG, blocks, BLOCKS, waiting, YARD_WAITING_WORDS, identity, giver, taker, pallets),
           expected);
}

static void withdraw(const char *what, uint32_t identity, uint32_t expected) {
    expect(what, yard_withdraw(table, TABLE, log_words, LOG, blocks, BLOCKS, waiting, YARD_WAITING_WORDS, identity), expected);
}

/* By the decided block of replica 0. */
static void match(const char *what, uint32_t identity, uint32_t place, uint32_t expected) {
    expect(what,
           yard_match(table, TABLE, log_words, LOG, blocks, BLOCKS, waiting, YARD_WAITING_WORDS, movements,
                      sizeof movements / sizeof *movements, 0, identity, place),
           expected);
}

/* What waits for each firm: pallets, and the earliest arrival. */
static void ask(void) {
    printf("  waiting:");
    for (uint32_t firm = 0; firm < FIRMS; firm++) {
        uint32_t pallets, earliest;
        if (yard_ask(table, TABLE, log_words, LOG, blocks, BLOCKS, waiting, YARD_WAITING_WORDS, firm, &pallets, &earliest) != YARD_ACCEPTED)
            wrong = 1;
        printf(" firm %u %u pallets, earliest %u;", firm, pallets, earliest);
    }
    printf("\n");
}

static uint32_t call(uint32_t code, uint32_t replica, uint32_t number, const uint32_t *list, size_t length) {
    uint32_t first, second;
    if (yard_call(code, replica, number, list, length, table, TABLE, log_words, LOG, blocks, BLOCKS, &first, &second) != YARD_ACCEPTED)
        wrong = 1;
    return first;
}

/* Block 1 is proposed in view 1, stored and decided. */
static void decide(void) {
    uint32_t views[2], commits[2], acc, proposal;
    views[0] = call(YARD_CALL_VIEW, 0, 1, NULL, 0);
    views[1] = call(YARD_CALL_VIEW, 1, 1, NULL, 0);
    acc = call(YARD_CALL_ACCUMULATE, 0, 0, views, 2);
    proposal = call(YARD_CALL_PREPARE_ON_ACC, 0, call(YARD_CALL_BLOCK, 0, 0, NULL, 0), &acc, 1);
    commits[0] = call(YARD_CALL_STORE, 0, proposal, NULL, 0);
    commits[1] = call(YARD_CALL_STORE, 1, proposal, NULL, 0);
    printf("decided: block %u\n", call(YARD_CALL_DECIDE, 0, 0, commits, 2));
}

int main(void) {
    uint32_t replicas;
    expect("open, with the further slice",
           yard_open_waiting(1, NULL, 0, table, TABLE, log_words, LOG, blocks, BLOCKS, waiting, YARD_WAITING_WORDS, &replicas),
           YARD_ACCEPTED);
    enter("enter 7, 5 pallets from 0 to 1", 7, 0, 1, 5, YARD_ACCEPTED);
    enter("enter 3, 10 pallets from 2 to 1", 3, 2, 1, 10, YARD_ACCEPTED);
    enter("enter 9, 4 pallets from 1 to 2", 9, 1, 2, 4, YARD_ACCEPTED);
    enter("enter 9 once more", 9, 1, 2, 6, YARD_REFUSED_IDENTITY);
    enter("enter 8, from 1 to itself", 8, 1, 1, 6, YARD_REFUSED_MOVEMENT);
    ask();
    decide();
    match("7 leaves by place 0", 7, 0, YARD_ACCEPTED);
    ask(); /* the earliest for firm 1 has left: 3 is next */
    enter("enter 7 again, a fresh arrival", 7, 0, 1, 5, YARD_ACCEPTED);
    ask();
    match("7 by place 0 again, which was used", 7, 0, YARD_REFUSED_CERTIFICATE);
    match("3 leaves by place 1", 3, 1, YARD_ACCEPTED);
    ask();
    withdraw("withdraw 9", 9, YARD_ACCEPTED);
    withdraw("withdraw 9 once more", 9, YARD_REFUSED_IDENTITY);
    ask();
    return wrong;
}
