/*
 * liivokarp.h: the gene structure assembler as a C library.
 *
 * Link target/staticlib/libliivokarp.a, on x86-64. A sheet is text; docs/SHEETS.md explains its
 * lines and what to do about each refusal.
 *
 * What every function here keeps to:
 *
 * - Every input gets a reply. There is nothing to initialise, to free or to check before a call.
 * - What is passed by pointer is lent until the function returns. No pointer is kept.
 * - Only the chain buffer of lk_assemble is written, and only when the reply's number is LK_DONE.
 *   On a refusal no buffer changes.
 * - With a length of 0 the pointer beside it is not followed, whatever it is.
 * - A length must not be larger than what the pointer points to, and the chain buffer must not
 *   overlap the sheet. Nothing else is required.
 * - There is no global state: calls may run on several threads at once, as long as no thread
 *   writes to what another has lent.
 * - A call takes less than 2 MB of stack and no other memory. A thread with a smaller stack must
 *   be given a larger one.
 */

#ifndef LIIVOKARP_H
#define LIIVOKARP_H

#include <stddef.h>
#include <stdint.h>

#ifdef __cplusplus
extern "C" {
#endif

/*
 * What a reply's number says, and what its place says. A place that is not named is 0.
 *
 * An offset is that of the first byte of a line of the sheet, counted from 0. For lk_region_score
 * a place is the number of a record, counted from 1, and 0 means the region itself.
 */
enum lk_number {
    /* The answer is there. */
    LK_DONE = 0,
    /* The sheet is empty or has more than 65,536 bytes. */
    LK_SHEET_SIZE = 1,
    /* The last byte is no line feed, or the last line is no T line that fits the sheet. */
    LK_TRAILER = 2,
    /* A line is malformed, or not of its group's letter. Place: its offset. */
    LK_MALFORMED = 3,
    /* A field is outside its range. Place: offset of its line, or its record. */
    LK_OUT_OF_RANGE = 4,
    /* Not strictly after the one before it. Place: offset of the line, or the record. */
    LK_OUT_OF_ORDER = 5,
    /* A Q line without its rule, or a rule whose function has no point. Place: its offset. */
    LK_WITHOUT_PARTNER = 6,
    /* One more than there may be. Place: offset of the line, or the record. */
    LK_BEYOND_MOST = 7,
    /* The chain buffer has fewer entries than the sheet has candidates. */
    LK_SHORT_BUFFER = 8,
    /* The model allows no structure on this sheet. */
    LK_NO_VALID_CHAIN = 9,
    /* The list sent in does not rise from 0 to the last candidate. */
    LK_NOT_A_CHAIN = 10,
    /* The model forbids a step of the chain sent in. Place: the first such step, from 1. */
    LK_BREAKS_MODEL = 11
};

enum {
    LK_MOST_SHEET_BYTES = 65536,
    /* A chain buffer of so many entries is never short: 1,024 F lines, BEGIN and END. */
    LK_MOST_CANDIDATES = 1026,
    LK_MOST_RECORDS = 1024
};

/*
 * What every function returns. Scores are thousandths. When number is not LK_DONE, score and
 * count are 0.
 */
struct lk_reply {
    uint64_t number;
    uint64_t place;
    int64_t score;
    uint64_t count;
};

/* A segment as a record, as an S line has it: type 0..15, first base, last base, score. */
struct lk_segment {
    uint32_t kind;
    uint32_t start;
    uint32_t end;
    int64_t score;
};

/*
 * A region from base source to base target, both included, and what a Q line asks about it:
 * segment type 0..15, method 1 or 2, phase 0..3, match 0..3.
 */
struct lk_region {
    uint32_t source;
    uint32_t target;
    uint32_t kind;
    uint32_t method;
    uint32_t phase;
    uint32_t matching;
};

/*
 * The best structure of a sheet.
 *
 * On LK_DONE the first count entries of chain are candidate numbers, rising from 0 (BEGIN) to
 * n + 1 (END), where n is the number of F lines and candidate k between is the k-th F line; score
 * is the chain's score. Entries behind them stay as they were. The buffer must have n + 2
 * entries, however long the chain is; LK_MOST_CANDIDATES always suffice.
 *
 * Numbers: LK_DONE to LK_NO_VALID_CHAIN.
 */
struct lk_reply lk_assemble(const uint8_t *sheet, size_t sheet_length,
                            uint32_t *chain, size_t chain_length);

/*
 * The score of a chain sent in: a list of candidate numbers as lk_assemble writes it.
 *
 * On LK_DONE score is the chain's score and count its length. Nothing is written.
 *
 * Numbers: LK_DONE to LK_BEYOND_MOST, LK_NOT_A_CHAIN, LK_BREAKS_MODEL.
 */
struct lk_reply lk_score_chain(const uint8_t *sheet, size_t sheet_length,
                               const uint32_t *chain, size_t chain_length);

/*
 * The segment score of one region over records, as a Q line has it over the S lines of a sheet.
 * Records stand in the order of S lines: by start, then end, then kind, no two with the same three.
 *
 * On LK_DONE score is the region's score and count is 0. Nothing is written.
 *
 * Numbers: LK_DONE, LK_OUT_OF_RANGE, LK_OUT_OF_ORDER, LK_BEYOND_MOST.
 */
struct lk_reply lk_region_score(struct lk_region region,
                                const struct lk_segment *records, size_t records_length);

#ifdef __cplusplus
}
#endif

#endif
