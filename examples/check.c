/* A check from C: cc -I include examples/check.c dist/libaps2_c.a -o check && ./check */
#include "aps2.h"
#include <stdio.h>
int main(void) {
    uint64_t words[] = {0x9100800000000000, 0x2100400000000000, 0x0100000004000001, 0x6000000000000000}, marks[4], place[2];
    uint64_t firmware = 0; /* current; any other number is the older kind */
    uint64_t number = aps2_check(words, 4, 5, firmware, marks, 4, place);
    printf("number %d at word %d\n", (int)number, (int)place[0]);
}
