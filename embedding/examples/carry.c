/* Carries out the rule that is given on the slip that is given. */
#include <inttypes.h>
#include <stdio.h>
#include <string.h>

#include "yopobrush.h"

static int refused(const char *text, struct yopobrush_reading r) {
    if (r.refusal != 0)
        fprintf(stderr, "%s refused %" PRIu64 " at %" PRIu64 "\n", text, r.refusal, r.place);
    return r.refusal != 0;
}

int main(int count, char **arguments) {
    static uint8_t room[4607];
    struct yopobrush_carrying carried;
    if (count != 3) {
        fprintf(stderr, "a rule and a slip are needed\n");
        return 2;
    }
    carried = yopobrush_carry_out(
        (const uint8_t *)arguments[1], strlen(arguments[1]),
        (const uint8_t *)arguments[2], strlen(arguments[2]),
        room, sizeof room);
    if (refused("rule", carried.rule) || refused("slip", carried.slip))
        return 1;
    switch (carried.answer) {
    case YOPOBRUSH_NO:
        printf("no ");
        break;
    case YOPOBRUSH_YES:
        printf("yes ");
        break;
    case YOPOBRUSH_TOO_LONG:
        printf("refusal 11 ");
        break;
    default:
        fprintf(stderr, "%" PRIu64 " bytes are needed\n", carried.bytes);
        return 1;
    }
    fwrite(room, 1, carried.bytes, stdout);
    printf("\n");
    return 0;
}
