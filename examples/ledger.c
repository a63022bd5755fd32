/* A ledger of three replicas in C: open it, decide a block, cut one replica's power, recover it; calls whose answers got lost are made
 * again, and a wrong height is told. Then it is opened anew, with steps of the pool's own and without a log. Its status is 1 if an answer
 * was wrong. */
#include "yard.h"

#include <stdio.h>

enum { TABLE = YARD_TABLE_WORDS(1), LOG = 16 * YARD_CERTIFICATE_WORDS, BLOCKS = 4 * YARD_BLOCK_WORDS };

static uint32_t table[TABLE], log_words[LOG], blocks[BLOCKS];

static int wrong;

/* Makes a call and holds its answer against what it should be. */
static void call(uint32_t code, uint32_t replica, uint32_t number, const uint32_t *list, size_t length, uint32_t answer, uint32_t one,
                 uint32_t two) {
    uint32_t first, second;
    uint32_t got = yard_call(code, replica, number, list, length, table, TABLE, log_words, LOG, blocks, BLOCKS, &first, &second);
    int right = got == answer && first == one && second == two;
    printf("%2u %u %2u: %u %u %u%s\n", code, replica, number, got, first, second, right ? "" : "  WRONG");
    if (!right)
        wrong = 1;
}

/* A replica's height as its panel shows it, in eight columns. */
static void panel(uint32_t replica, uint32_t answer, uint32_t height) {
    uint32_t shown = 0;
    uint8_t columns[YARD_COLUMNS] = {0};
    uint32_t got = yard_panel(table, TABLE, log_words, LOG, blocks, BLOCKS, replica, &shown);
    uint32_t wrote = yard_write_number(shown, columns, YARD_COLUMNS);
    printf("panel of %u: %u |%.*s|\n", replica, got, YARD_COLUMNS, (const char *)columns);
    if (got != answer || shown != height || wrote != YARD_ACCEPTED || yard_read_number(columns, YARD_COLUMNS) != shown)
        wrong = 1;
}

/* Another height in the record of block 1: calls and panel give 1, until the right one stands there again. */
static void another_height(void) {
    enum { HEIGHT_OF_1 = YARD_BLOCK_WORDS + YARD_BLOCK_HEIGHT };
    blocks[HEIGHT_OF_1] = 2;
    panel(0, YARD_REFUSED_FORM, 0);
    call(YARD_CALL_VIEW, 0, 2, NULL, 0, YARD_REFUSED_FORM, 0, 0);
    blocks[HEIGHT_OF_1] = 1;
    panel(0, YARD_ACCEPTED, 1);
}

/* Replicas 0 and 2 decide block 1; the power of replica 1 fails meanwhile. */
static void decide(void) {
    const uint32_t views[] = {0, 1}, acc[] = {2}, commits[] = {4, 5};
    call(YARD_CALL_OPEN, 1, 0, NULL, 0, YARD_ACCEPTED, 3, 0);
    call(YARD_CALL_VIEW, 0, 1, NULL, 0, YARD_ACCEPTED, 0, YARD_ADDED);
    call(YARD_CALL_VIEW, 0, 1, NULL, 0, YARD_ACCEPTED, 0, YARD_FOUND);
    call(YARD_CALL_VIEW, 1, 1, NULL, 0, YARD_ACCEPTED, 1, YARD_ADDED);
    call(YARD_CALL_ACCUMULATE, 0, 0, views, 2, YARD_ACCEPTED, 2, YARD_ADDED);
    call(YARD_CALL_ACCUMULATE, 0, 0, views, 2, YARD_ACCEPTED, 2, YARD_FOUND);
    call(YARD_CALL_BLOCK, 0, 0, NULL, 0, YARD_ACCEPTED, 1, 0);
    call(YARD_CALL_PREPARE_ON_ACC, 0, 1, acc, 1, YARD_ACCEPTED, 3, YARD_ADDED);
    call(YARD_CALL_PREPARE_ON_ACC, 0, 1, acc, 1, YARD_REFUSED_VIEW, 0, 0);
    call(YARD_CALL_STORE, 0, 3, NULL, 0, YARD_ACCEPTED, 4, YARD_ADDED);
    call(YARD_CALL_STORE, 0, 3, NULL, 0, YARD_REFUSED_VIEW, 0, 0);
    call(YARD_CALL_REBOOT, 1, 0, NULL, 0, YARD_ACCEPTED, 1, 64);
    call(YARD_CALL_STORE, 1, 3, NULL, 0, YARD_REFUSED_STATUS, 0, 0);
    call(YARD_CALL_STORE, 2, 3, NULL, 0, YARD_ACCEPTED, 5, YARD_ADDED);
    call(YARD_CALL_DECIDE, 0, 0, commits, 2, YARD_ACCEPTED, 1, 1);
    panel(0, YARD_ACCEPTED, 1);
    panel(1, YARD_ACCEPTED, 0);
}

/* Replica 1 asks, the others reply, and it comes back with the block that they stored in view 1. */
static void recover(void) {
    const uint32_t replies[] = {7, 8};
    call(YARD_CALL_REQUEST, 1, 0, NULL, 0, YARD_ACCEPTED, 6, YARD_ADDED);
    call(YARD_CALL_REQUEST, 1, 0, NULL, 0, YARD_ACCEPTED, 6, YARD_FOUND);
    call(YARD_CALL_REPLY, 0, 6, NULL, 0, YARD_ACCEPTED, 7, YARD_ADDED);
    call(YARD_CALL_REPLY, 0, 6, NULL, 0, YARD_ACCEPTED, 7, YARD_FOUND);
    call(YARD_CALL_REPLY, 2, 6, NULL, 0, YARD_ACCEPTED, 8, YARD_ADDED);
    call(YARD_CALL_RECOVER, 1, 0, replies, 2, YARD_ACCEPTED, 64, 1);
}

/* What is no call, and what is no opening; then a ledger with steps of the pool's own. */
static void open_anew(void) {
    const uint32_t steps[YARD_STEPS] = {256, 256, 512, 512, 1024, 1024, 2048, YARD_MAX_STEP};
    call(YARD_CALL_RECOVER + 1, 0, 0, NULL, 0, YARD_REFUSED_UNREADABLE, 0, 0);
    call(YARD_CALL_OPEN, 1, 0, steps, YARD_STEPS - 1, YARD_REFUSED_STEPS, 0, 0);
    panel(0, YARD_ACCEPTED, 1);
    call(YARD_CALL_OPEN, 1, 0, steps, YARD_STEPS, YARD_ACCEPTED, 3, 0);
    panel(0, YARD_ACCEPTED, 0);
    call(YARD_CALL_VIEW, 0, 255, NULL, 0, YARD_ACCEPTED, 0, YARD_ADDED);
    call(YARD_CALL_VIEW, 0, 256, NULL, 0, YARD_REFUSED_COUNTER, 0, 0);
    call(YARD_CALL_REBOOT, 0, 0, NULL, 0, YARD_ACCEPTED, 1, 256);
}

/* A log without slots, lent as NULL: there is no room for a certificate. No movements are lent as NULL too. */
static void without_log(void) {
    uint32_t first, second;
    int32_t balance;
    if (yard_call(YARD_CALL_OPEN, 1, 0, NULL, 0, table, TABLE, NULL, 0, blocks, BLOCKS, &first, &second) != YARD_ACCEPTED ||
        yard_call(YARD_CALL_VIEW, 0, 1, NULL, 0, table, TABLE, NULL, 0, blocks, BLOCKS, &first, &second) != YARD_REFUSED_ROOM ||
        yard_balance(table, TABLE, NULL, 0, blocks, BLOCKS, NULL, 0, 0, 0, &balance) != YARD_ACCEPTED || balance != 0)
        wrong = 1;
}

int main(void) {
    if (yard_version() != YARD_VERSION) {
        puts("the archive is not the header's");
        return 1;
    }
    decide();
    another_height();
    recover();
    open_anew();
    without_log();
    puts(wrong ? "wrong" : "right");
    return wrong;
}
