/* Reading tinting rules, listing the overlaps of two, asking for the size of
 * the list first or only whether there are any, and carrying one out on a slip:
 * the functions of libyopobrush.a, which `.ci/build library` writes.
 *
 * No pointer may be null, also where its length is 0, and the bytes lent for
 * an answer may share none with the texts. Nothing else is asked. A listing
 * takes up to a megabyte of stack, and asking no more. */
#ifndef YOPOBRUSH_H
#define YOPOBRUSH_H

#include <stddef.h>
#include <stdint.h>

#ifdef __cplusplus
extern "C" {
#endif

/* How a text is read: the number of its refusal, for a rule 1 to 6 and 10, for
 * a slip 1 to 5 and 7, and the place, counted in bytes from 0; or 0 and 0, and
 * then it is accepted. */
struct yopobrush_reading {
    uint64_t refusal;
    uint64_t place;
};

/* How each of two texts is read, and the overlap list of the rules that they
 * say, which looks at left sides only; a text that is refused has no
 * overlaps. The refusal is 0, or 8 where the list needs more bytes than are
 * lent, or 13 (YOPOBRUSH_STALE) where a commit's counts are not the list's.
 * Only with 0 is anything written. The counts are the list's, and with 13 both
 * are 0. */
struct yopobrush_listing {
    struct yopobrush_reading left;
    struct yopobrush_reading right;
    uint64_t refusal;
    uint64_t entries;
    uint64_t bytes;
};

/* The refusal of a commit whose counts are not those of its rules: it is tried
 * before 8. */
enum yopobrush_refusal {
    YOPOBRUSH_STALE = 13
};

/* How each of two texts is read, and how many entries and bytes the overlap
 * list of the rules that they say has; of a text that is refused, 0 and 0. */
struct yopobrush_asking {
    struct yopobrush_reading left;
    struct yopobrush_reading right;
    uint64_t entries;
    uint64_t bytes;
};

/* How each of two texts is read, and whether the rules that they say overlap:
 * 1 where some slip is matched by both, so that their list has an entry, and 0
 * where none is, or where a text is refused. */
struct yopobrush_overlapping {
    struct yopobrush_reading left;
    struct yopobrush_reading right;
    uint64_t overlap;
};

/* What carrying out a rule on a slip answers. */
enum yopobrush_answer {
    YOPOBRUSH_NO = 0,        /* no match, or no right side: the slip unchanged */
    YOPOBRUSH_YES = 1,       /* a match: the right side with the filling put in */
    YOPOBRUSH_TOO_SMALL = 8, /* the text needs more bytes than are lent */
    YOPOBRUSH_TOO_LONG = 11  /* a result field over 64 terms: the slip as given */
};

/* How a rule text and a slip text are read, what carrying out the one on the
 * other answers (an `enum yopobrush_answer`), and how many bytes its text has:
 * the plain text of the result after a yes, of the slip otherwise. With 8 none
 * of them is written, and the count is what is needed. A rule text that is
 * refused says a rule with no fields, which matches nothing: the answer is no.
 * A slip text that is refused says the slip with no fields, whose plain text
 * has no bytes. */
struct yopobrush_carrying {
    struct yopobrush_reading rule;
    struct yopobrush_reading slip;
    uint64_t answer;
    uint64_t bytes;
};

struct yopobrush_reading yopobrush_read_rule(const uint8_t *text, size_t length);

/* The lines go to the front of `out`; the bytes behind them stay. */
struct yopobrush_listing yopobrush_list_overlaps(
    const uint8_t *left, size_t left_length,
    const uint8_t *right, size_t right_length,
    uint8_t *out, size_t out_length);

/* The size of the list, so that as many bytes can be lent to a commit. Nothing
 * is written. */
struct yopobrush_asking yopobrush_ask_overlaps(
    const uint8_t *left, size_t left_length,
    const uint8_t *right, size_t right_length);

/* Writes the list as yopobrush_list_overlaps does, where `entries` and `bytes`
 * are its counts: what the ask returned for the same texts. Any counts may be
 * passed; with others the answer is 13, and `out` stays as it is. */
struct yopobrush_listing yopobrush_commit_overlaps(
    uint64_t entries, uint64_t bytes,
    const uint8_t *left, size_t left_length,
    const uint8_t *right, size_t right_length,
    uint8_t *out, size_t out_length);

/* Nothing is listed, so a yes comes with the first entry. */
struct yopobrush_overlapping yopobrush_texts_overlap(
    const uint8_t *left, size_t left_length,
    const uint8_t *right, size_t right_length);

/* The text goes to the front of `out`; the bytes behind it stay. No text has
 * more than 4,607 bytes. */
struct yopobrush_carrying yopobrush_carry_out(
    const uint8_t *rule, size_t rule_length,
    const uint8_t *slip, size_t slip_length,
    uint8_t *out, size_t out_length);

#ifdef __cplusplus
}
#endif

#endif
