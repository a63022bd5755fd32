/* For each digit count the first and the last number that has it, as they stand in their eight columns, to hold against a column sheet. Its
 * status is 1 if one of them was not written, or the first number of nine digits was. */
#include "yard.h"

#include <stdio.h>

enum { UNTOUCHED = '-' };

static int wrong;

/* Writes a number, whose answer must be the expected one, and prints the columns between two bars. */
static void print_columns(uint32_t number, uint32_t expected) {
    uint8_t bytes[YARD_COLUMNS];
    for (int i = 0; i < YARD_COLUMNS; i++)
        bytes[i] = UNTOUCHED;
    if (yard_write_number(number, bytes, YARD_COLUMNS) != expected)
        wrong = 1;
    printf("|%.*s|", YARD_COLUMNS, (const char *)bytes);
}

int main(void) {
    uint32_t first = 0, next = 10;
    for (int digits = 1; digits <= YARD_COLUMNS; digits++) {
        printf("digits %d: ", digits);
        print_columns(first, YARD_ACCEPTED);
        printf(" to ");
        print_columns(next - 1, YARD_ACCEPTED);
        printf("\n");
        first = next;
        next *= 10;
    }
    printf("digits %d: ", YARD_COLUMNS + 1);
    print_columns(first, YARD_REFUSED_UNREADABLE);
    printf(" for %u, which is not written\n", first);
    return wrong;
}
