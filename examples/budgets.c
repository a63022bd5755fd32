/* What a decision and a recovery take of the log, what a log of 4,096 slots holds, and what is answered where room ends: measured for the
 * least and the greatest f, and held to the budgets of yard.h. `way_on` makes the calls of the way on. Its status is 1 if one is off. */
#include "yard.h"

#include <stdio.h>

struct ledger {
    uint32_t f; /* as it was opened, so at most YARD_MAX_F */
    uint32_t *table, *log, *blocks;
    size_t table_length, log_length, blocks_length;
};

static uint32_t calls; /* since the last open */
static int wrong;

/* Makes a call: its answer, and its first value. */
static uint32_t call(struct ledger *l, uint32_t code, uint32_t replica, uint32_t number, const uint32_t *list, size_t length,
                     uint32_t *first) {
    uint32_t second;
    calls++;
    return yard_call(code, replica, number, list, length, l->table, l->table_length, l->log, l->log_length, l->blocks, l->blocks_length,
                     first, &second);
}

/* Each of f+1 replicas stores a proposal, and the leader decides: the first refusal, or YARD_ACCEPTED, with COMMITs and block. */
static uint32_t store_and_decide(struct ledger *l, const uint32_t *replicas, uint32_t leader, uint32_t prop, uint32_t *commits,
                                 uint32_t *block) {
    uint32_t answer = YARD_ACCEPTED;
    for (size_t i = 0; i < YARD_QUORUM(l->f) && answer == YARD_ACCEPTED; i++)
        answer = call(l, YARD_CALL_STORE, replicas[i], prop, NULL, 0, &commits[i]);
    return answer != YARD_ACCEPTED ? answer : call(l, YARD_CALL_DECIDE, leader, 0, commits, YARD_QUORUM(l->f), block);
}

/* The way on: f+1 replicas decide a new block in view w, by YARD_DECISION_CALLS(f) calls, each with the numbers that those before it gave.
 * Returns the first refusal, after which it makes no call; or YARD_ACCEPTED, with the f+1 COMMITs and the block. */
static uint32_t way_on(struct ledger *l, const uint32_t *replicas, uint32_t w, uint32_t *commits, uint32_t *block) {
    uint32_t views[YARD_MAX_LIST], acc = 0, prop = 0, answer = YARD_ACCEPTED, leader = (w - 1) % YARD_REPLICAS(l->f);
    for (size_t i = 0; i < YARD_QUORUM(l->f) && answer == YARD_ACCEPTED; i++)
        answer = call(l, YARD_CALL_VIEW, replicas[i], w, NULL, 0, &views[i]);
    if (answer == YARD_ACCEPTED)
        answer = call(l, YARD_CALL_ACCUMULATE, leader, 0, views, YARD_QUORUM(l->f), &acc);
    if (answer == YARD_ACCEPTED)
        answer = call(l, YARD_CALL_BLOCK, 0, l->log[YARD_CERTIFICATE_WORDS * acc + YARD_CERTIFICATE_BLOCK], NULL, 0, block);
    if (answer == YARD_ACCEPTED)
        answer = call(l, YARD_CALL_PREPARE_ON_ACC, leader, *block, &acc, 1, &prop);
    return answer != YARD_ACCEPTED ? answer : store_and_decide(l, replicas, leader, prop, commits, block);
}

/* The next decision, in view w, on the block and the COMMITs of the view before; its leader enters w first where it did not store there. */
static uint32_t next_on_commits(struct ledger *l, const uint32_t *replicas, uint32_t w, int enters, uint32_t *commits, uint32_t *block) {
    uint32_t newview, prop = 0, answer = YARD_ACCEPTED, leader = (w - 1) % YARD_REPLICAS(l->f);
    if (enters)
        answer = call(l, YARD_CALL_VIEW, leader, w, NULL, 0, &newview);
    if (answer == YARD_ACCEPTED)
        answer = call(l, YARD_CALL_BLOCK, 0, *block, NULL, 0, block);
    if (answer == YARD_ACCEPTED)
        answer = call(l, YARD_CALL_PREPARE_ON_COMMITS, leader, *block, commits, YARD_QUORUM(l->f), &prop);
    return answer != YARD_ACCEPTED ? answer : store_and_decide(l, replicas, leader, prop, commits, block);
}

/* Replica 0 loses its power, and recovers by replicas 1 to f+1. */
static uint32_t cut_and_recover(struct ledger *l) {
    uint32_t value, req = 0, replies[YARD_MAX_LIST], answer = call(l, YARD_CALL_REBOOT, 0, 0, NULL, 0, &value);
    if (answer == YARD_ACCEPTED)
        answer = call(l, YARD_CALL_REQUEST, 0, 0, NULL, 0, &req);
    for (uint32_t i = 0; i < YARD_QUORUM(l->f) && answer == YARD_ACCEPTED; i++)
        answer = call(l, YARD_CALL_REPLY, i + 1, req, NULL, 0, &replies[i]);
    return answer != YARD_ACCEPTED ? answer : call(l, YARD_CALL_RECOVER, 0, 0, replies, YARD_QUORUM(l->f), &value);
}

/* A ledger whose log has so many slots. With these steps every limit is 4,096 at once, and nobody need reserve. */
static struct ledger opened(uint32_t f, size_t slots) {
    static uint32_t table[YARD_TABLE_WORDS(YARD_MAX_F)], log[YARD_MAX_CERTIFICATES * YARD_CERTIFICATE_WORDS];
    static uint32_t blocks[YARD_MAX_BLOCKS * YARD_BLOCK_WORDS];
    const uint32_t most = YARD_MAX_STEP, steps[YARD_STEPS] = {most, most, most, most, most, most, most, most};
    struct ledger l = {f, table, log, blocks, YARD_TABLE_WORDS(f), slots * YARD_CERTIFICATE_WORDS, YARD_MAX_BLOCKS * YARD_BLOCK_WORDS};
    uint32_t replicas;
    call(&l, YARD_CALL_OPEN, f, 0, steps, YARD_STEPS, &replicas);
    calls = 0;
    return l;
}

/* f+1 replicas in a row: from the leader of view w on, so that the leader of view w + 1 is one of them. */
static const uint32_t *from_leader(const struct ledger *l, uint32_t w) {
    static uint32_t replicas[YARD_MAX_LIST];
    for (uint32_t i = 0; i < YARD_QUORUM(l->f); i++)
        replicas[i] = (w - 1 + i) % YARD_REPLICAS(l->f);
    return replicas;
}

enum { ON_ACC, CALLS, NEXT, ENTERING, RECOVERY, ON_ACCS, ON_COMMITS, LAST_STORE, REQUEST, FIGURES };

/* What each takes, one after the other in one ledger. In view 3 the leader of view 4 does not store, so it enters. */
static void measure_slots(uint32_t f, uint32_t *got) {
    struct ledger l = opened(f, YARD_MAX_CERTIFICATES);
    uint32_t commits[YARD_MAX_LIST], block, before, *issued = &l.table[YARD_TABLE_CERTIFICATES];
    wrong |= way_on(&l, from_leader(&l, 2), 2, commits, &block) != YARD_ACCEPTED;
    got[ON_ACC] = before = *issued;
    got[CALLS] = calls;
    wrong |= next_on_commits(&l, from_leader(&l, 5), 3, 0, commits, &block) != YARD_ACCEPTED;
    got[NEXT] = *issued - before;
    before = *issued;
    wrong |= next_on_commits(&l, from_leader(&l, 4), 4, 1, commits, &block) != YARD_ACCEPTED;
    got[ENTERING] = *issued - before;
    before = *issued;
    wrong |= cut_and_recover(&l) != YARD_ACCEPTED;
    got[RECOVERY] = *issued - before;
}

/* Decisions until the log is full, on ACCs or after the first on COMMITs. Then the power of replica 0 fails, and it makes its request. */
static uint32_t fill(uint32_t f, int on_commits, uint32_t *request) {
    struct ledger l = opened(f, YARD_MAX_CERTIFICATES);
    uint32_t commits[YARD_MAX_LIST], block, w = 2, decisions = 0, answer = way_on(&l, from_leader(&l, w), w, commits, &block);
    while (answer == YARD_ACCEPTED) {
        decisions++;
        w += on_commits ? 1 : 2; /* whoever stored in view w has w + 1 as its lowest view, and the way on is above that */
        answer = on_commits ? next_on_commits(&l, from_leader(&l, w), w, 0, commits, &block)
                            : way_on(&l, from_leader(&l, w), w, commits, &block);
    }
    wrong |= answer != YARD_REFUSED_ROOM || l.table[YARD_TABLE_CERTIFICATES] != YARD_MAX_CERTIFICATES;
    *request = cut_and_recover(&l);
    return decisions;
}

static void measure(uint32_t f, uint32_t *got) {
    uint32_t commits[YARD_MAX_LIST], block, request;
    struct ledger few;
    measure_slots(f, got);
    got[ON_ACCS] = fill(f, 0, &request);
    got[ON_COMMITS] = fill(f, 1, &got[REQUEST]);
    wrong |= request != got[REQUEST];
    few = opened(f, YARD_DECISION_SLOTS(f) - 1);
    got[LAST_STORE] = way_on(&few, from_leader(&few, 2), 2, commits, &block);
    wrong |= calls != YARD_DECISION_CALLS(f) - 1; /* the store before the decide */
}

static void show(const char *name, uint32_t one, uint32_t budget_of_one, uint32_t most, uint32_t budget_of_most) {
    printf("%-41s %6u %7u\n", name, one, most);
    wrong |= one != budget_of_one || most != budget_of_most;
}

int main(void) {
    enum { F = YARD_MAX_F, SLOTS = YARD_MAX_CERTIFICATES, ROOM = YARD_REFUSED_ROOM };
    uint32_t a[FIGURES], b[FIGURES];
    measure(1, a);
    measure(F, b);
    printf("%-41s  f = 1  f = %d\n", "", F);
    show("slots of a decision on an ACC", a[ON_ACC], YARD_DECISION_SLOTS(1), b[ON_ACC], YARD_DECISION_SLOTS(F));
    show("its calls", a[CALLS], YARD_DECISION_CALLS(1), b[CALLS], YARD_DECISION_CALLS(F));
    show("slots of the next, on its COMMITs", a[NEXT], YARD_NEXT_DECISION_SLOTS(1), b[NEXT], YARD_NEXT_DECISION_SLOTS(F));
    show("slots where its leader enters first", a[ENTERING], YARD_NEXT_DECISION_ENTERING_SLOTS(1), b[ENTERING],
         YARD_NEXT_DECISION_ENTERING_SLOTS(F));
    show("slots of a recovery", a[RECOVERY], YARD_RECOVERY_SLOTS(1), b[RECOVERY], YARD_RECOVERY_SLOTS(F));
    show("decisions in 4,096 slots, on ACCs", a[ON_ACCS], YARD_DECISIONS_ON_ACCS(SLOTS, 1), b[ON_ACCS], YARD_DECISIONS_ON_ACCS(SLOTS, F));
    show("decisions in 4,096 slots, on COMMITs", a[ON_COMMITS], YARD_DECISIONS_ON_COMMITS(SLOTS, 1), b[ON_COMMITS],
         YARD_DECISIONS_ON_COMMITS(SLOTS, F));
    show("answer to the last store, a slot too few", a[LAST_STORE], ROOM, b[LAST_STORE], ROOM);
    show("answer to a request in a full log", a[REQUEST], ROOM, b[REQUEST], ROOM);
    return wrong;
}
