/* Which certificate is from before a power cut: replica 0 issues an ACC, loses power, recovers, and issues it again. The two agree in seven
 * words; the eighth, the boot of its signer, tells them apart. Then a block is proposed on the old one and decided. */
#include "yard.h"

#include <stdio.h>

enum { TABLE = YARD_TABLE_WORDS(1), SLOTS = 16, LOG = SLOTS * YARD_CERTIFICATE_WORDS, BLOCKS = 4 * YARD_BLOCK_WORDS };

static uint32_t table[TABLE], log_words[LOG], blocks[BLOCKS];

/* Makes a call: whether it was accepted. */
static int call(uint32_t code, uint32_t replica, uint32_t number, const uint32_t *list, size_t length) {
    uint32_t first, second;
    return yard_call(code, replica, number, list, length, table, TABLE, log_words, LOG, blocks, BLOCKS, &first, &second) == YARD_ACCEPTED;
}

/* Every issued certificate, a line each. */
static void print_log(void) {
    const char *kinds[] = {"?", "PROP", "COMMIT", "NEWVIEW", "ACC", "REQ", "REPLY"};
    printf("    kind    signer view block of-view subject its boot | signer's boot\n");
    for (uint32_t c = 0; c < table[YARD_TABLE_CERTIFICATES]; c++) {
        const uint32_t *w = &log_words[YARD_CERTIFICATE_WORDS * c];
        printf("%2u: %-7s %6u ", c, kinds[w[YARD_CERTIFICATE_KIND]], w[YARD_CERTIFICATE_SIGNER]);
        printf("%4u %5u %7u ", w[YARD_CERTIFICATE_VIEW], w[YARD_CERTIFICATE_BLOCK], w[YARD_CERTIFICATE_OF_VIEW]);
        printf("%7u %8u | ", w[YARD_CERTIFICATE_SUBJECT], w[YARD_CERTIFICATE_SUBJECT_BOOT]);
        printf("%13u\n", w[YARD_CERTIFICATE_SIGNER_BOOT]);
    }
}

int main(void) {
    const uint32_t views[] = {0, 1}, replies[] = {4, 5}, old_acc[] = {2}, commits[] = {8, 9};
    int accepted = call(YARD_CALL_OPEN, 1, 0, NULL, 0) && call(YARD_CALL_BLOCK, 0, 0, NULL, 0);
    accepted = accepted && call(YARD_CALL_RESERVE, 1, 0, NULL, 0) && call(YARD_CALL_RESERVE, 2, 0, NULL, 0);
    accepted = accepted && call(YARD_CALL_VIEW, 1, 64, NULL, 0) && call(YARD_CALL_VIEW, 2, 64, NULL, 0);
    accepted = accepted && call(YARD_CALL_ACCUMULATE, 0, 0, views, 2);
    accepted = accepted && call(YARD_CALL_REBOOT, 0, 0, NULL, 0) && call(YARD_CALL_REQUEST, 0, 0, NULL, 0);
    accepted = accepted && call(YARD_CALL_REPLY, 1, 3, NULL, 0) && call(YARD_CALL_REPLY, 2, 3, NULL, 0);
    accepted = accepted && call(YARD_CALL_RECOVER, 0, 0, replies, 2);
    accepted = accepted && call(YARD_CALL_ACCUMULATE, 0, 0, views, 2);
    accepted = accepted && call(YARD_CALL_PREPARE_ON_ACC, 0, 1, old_acc, 1);
    accepted = accepted && call(YARD_CALL_STORE, 0, 7, NULL, 0) && call(YARD_CALL_STORE, 1, 7, NULL, 0);
    accepted = accepted && call(YARD_CALL_DECIDE, 0, 0, commits, 2);
    print_log();
    return accepted ? 0 : 1;
}
