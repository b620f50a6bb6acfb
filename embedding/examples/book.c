/* Tells which of the rules that are given overlap: a line for each pair, with
 * their numbers from 1. */
#include <inttypes.h>
#include <stdio.h>
#include <string.h>

#include "yopobrush.h"

static int refused(int number, const char *text) {
    struct yopobrush_reading r = yopobrush_read_rule((const uint8_t *)text, strlen(text));
    if (r.refusal != 0)
        fprintf(stderr, "rule %d refused %" PRIu64 " at %" PRIu64 "\n", number, r.refusal, r.place);
    return r.refusal != 0;
}

static int overlap(const char *left, const char *right) {
    struct yopobrush_overlapping answer = yopobrush_texts_overlap(
        (const uint8_t *)left, strlen(left),
        (const uint8_t *)right, strlen(right));
    return answer.overlap == 1;
}

int main(int count, char **arguments) {
    int left, right;
    for (left = 1; left < count; left++)
        if (refused(left, arguments[left]))
            return 1;
    for (left = 1; left < count; left++)
        for (right = left + 1; right < count; right++)
            if (overlap(arguments[left], arguments[right]))
                printf("%d %d\n", left, right);
    return 0;
}
