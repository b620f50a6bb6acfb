/* Lists the overlaps of the two rules that are given. */
#include <inttypes.h>
#include <stdio.h>
#include <string.h>

#include "yopobrush.h"

static int refused(const char *side, struct yopobrush_reading r) {
    if (r.refusal != 0)
        fprintf(stderr, "%s rule refused %" PRIu64 " at %" PRIu64 "\n", side, r.refusal, r.place);
    return r.refusal != 0;
}

int main(int count, char **arguments) {
    static uint8_t room[65536];
    struct yopobrush_listing list;
    if (count != 3) {
        fprintf(stderr, "two rules are needed\n");
        return 2;
    }
    list = yopobrush_list_overlaps(
        (const uint8_t *)arguments[1], strlen(arguments[1]),
        (const uint8_t *)arguments[2], strlen(arguments[2]),
        room, sizeof room);
    if (refused("left", list.left) || refused("right", list.right))
        return 1;
    if (list.refusal != 0) {
        fprintf(stderr, "%" PRIu64 " bytes are needed\n", list.bytes);
        return 1;
    }
    fwrite(room, 1, list.bytes, stdout);
    return 0;
}
