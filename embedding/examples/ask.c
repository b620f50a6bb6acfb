/* Asks for the size of the overlap list of the two rules that are given, takes
 * as much memory as it needs, and then lists them. */
#include <inttypes.h>
#include <stdio.h>
#include <stdlib.h>
#include <string.h>

#include "yopobrush.h"

static int refused(const char *side, struct yopobrush_reading r) {
    if (r.refusal != 0)
        fprintf(stderr, "%s rule refused %" PRIu64 " at %" PRIu64 "\n", side, r.refusal, r.place);
    return r.refusal != 0;
}

/* Never null, also for no bytes. */
static uint8_t *memory(uint64_t bytes) {
    uint8_t *room = malloc(bytes == 0 ? 1 : bytes);
    if (room == NULL) {
        fprintf(stderr, "%" PRIu64 " bytes are needed\n", bytes);
        exit(1);
    }
    return room;
}

int main(int count, char **arguments) {
    struct yopobrush_asking asked;
    struct yopobrush_listing list;
    const uint8_t *left, *right;
    uint8_t *room;
    if (count != 3) {
        fprintf(stderr, "two rules are needed\n");
        return 2;
    }
    left = (const uint8_t *)arguments[1];
    right = (const uint8_t *)arguments[2];
    asked = yopobrush_ask_overlaps(left, strlen(arguments[1]), right, strlen(arguments[2]));
    if (refused("left", asked.left) || refused("right", asked.right))
        return 1;
    printf("%" PRIu64 " entries, %" PRIu64 " bytes\n", asked.entries, asked.bytes);
    room = memory(asked.bytes);
    list = yopobrush_commit_overlaps(
        asked.entries, asked.bytes,
        left, strlen(arguments[1]),
        right, strlen(arguments[2]),
        room, asked.bytes);
    if (list.refusal == YOPOBRUSH_STALE)
        fprintf(stderr, "the counts are not those of the rules\n");
    if (list.refusal == 0)
        fwrite(room, 1, list.bytes, stdout);
    free(room);
    return list.refusal != 0;
}
