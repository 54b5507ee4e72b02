/*
 * assemble SHEET: prints the best structure of a sheet, or says in words why there is none; then
 * scores one region over the segments of the sheet, which it hands over as records.
 */

#include <inttypes.h>
#include <stdio.h>
#include <string.h>

#include "liivokarp.h"

/* What the number of a refusal means. */
static const char *meaning_of(uint64_t number)
{
    switch (number) {
    case LK_SHEET_SIZE: return "the sheet is empty or has more than 65,536 bytes";
    case LK_TRAILER: return "the last line is no T line that fits the sheet";
    case LK_MALFORMED: return "a line is malformed, or not of its group's letter";
    case LK_OUT_OF_RANGE: return "a field is outside its range";
    case LK_OUT_OF_ORDER: return "a line or record does not stand after the one before it";
    case LK_WITHOUT_PARTNER: return "a Q line without its rule, or a rule without its points";
    case LK_BEYOND_MOST: return "one line or record more than there may be";
    case LK_SHORT_BUFFER: return "the chain buffer has fewer entries than the sheet has candidates";
    case LK_NO_VALID_CHAIN: return "the model allows no structure on this sheet";
    case LK_NOT_A_CHAIN: return "the list does not rise from 0 to the last candidate";
    case LK_BREAKS_MODEL: return "the model forbids a step of the chain";
    default: return "a number that this program does not know";
    }
}

/* Whether the place of such a refusal of a sheet is a line's offset. */
static int has_line(uint64_t number)
{
    return LK_MALFORMED <= number && number <= LK_BEYOND_MOST;
}

static size_t line_number_at(const char *sheet, uint64_t offset)
{
    size_t number = 1;
    for (uint64_t at = 0; at < offset; at++)
        number += sheet[at] == '\n';
    return number;
}

static void print_refusal(const char *sheet, struct lk_reply reply)
{
    printf("refused with %" PRIu64 ": %s", reply.number, meaning_of(reply.number));
    if (has_line(reply.number))
        printf(" (line %zu, byte %" PRIu64 ")", line_number_at(sheet, reply.place), reply.place);
    printf("\n");
}

/* The first line of a text that begins with this letter, or NULL. */
static const char *find_line(const char *text, char letter)
{
    while (text != NULL && *text != letter) {
        text = strchr(text, '\n');
        if (text != NULL)
            text++;
    }
    return text;
}

/* The next line behind this one, if it begins with the same letter, or NULL. */
static const char *next_line(const char *line)
{
    const char *next = strchr(line, '\n') + 1;
    return *next == *line ? next : NULL;
}

/*
 * Prints the chain of a sheet that has been accepted. Candidate k is the k-th F line, and the
 * chain rises, so one walk over the F lines finds them all.
 */
static void print_structure(const char *sheet, struct lk_reply reply, const uint32_t *chain)
{
    const char *line = find_line(sheet, 'F');
    uint32_t candidate = 1;
    printf("score %" PRId64 ", chain of %" PRIu64 "\n", reply.score, reply.count);
    printf("%6" PRIu32 "  BEGIN\n", chain[0]);
    for (uint64_t entry = 1; entry + 1 < reply.count; entry++) {
        unsigned type = 0;
        unsigned position = 0;
        for (; candidate < chain[entry]; candidate++)
            line = next_line(line);
        sscanf(line, "F %u %u", &type, &position);
        printf("%6" PRIu32 "  type %2u at %u\n", chain[entry], type, position);
    }
    printf("%6" PRIu32 "  END\n", chain[reply.count - 1]);
}

/* The S lines of an accepted sheet as records. There are at most LK_MOST_RECORDS. */
static size_t read_segments(const char *sheet, struct lk_segment *records)
{
    size_t count = 0;
    for (const char *line = find_line(sheet, 'S'); line != NULL; line = next_line(line)) {
        struct lk_segment *record = &records[count];
        sscanf(line, "S %" SCNu32 " %" SCNu32 " %" SCNu32 " %" SCNd64,
               &record->kind, &record->start, &record->end, &record->score);
        count++;
    }
    return count;
}

/* The region of the first record, by a Q line of its type: method 1, any phase, no match. */
static void score_first_region(const struct lk_segment *records, size_t count)
{
    struct lk_region region = {records[0].start, records[0].end, records[0].kind, 1, 3, 0};
    struct lk_reply reply = lk_region_score(region, records, count);
    if (reply.number != LK_DONE) {
        printf("region refused with %" PRIu64 " at record %" PRIu64 ": %s\n",
               reply.number, reply.place, meaning_of(reply.number));
        return;
    }
    printf("region %" PRIu32 "..%" PRIu32 " scores %" PRId64 " (records: %zu)\n",
           region.source, region.target, reply.score, count);
}

/* Reads up to most bytes of a file and ends them with a NUL. The result is their number, or -1. */
static long read_file(const char *path, char *text, size_t most)
{
    FILE *file = fopen(path, "rb");
    if (file == NULL)
        return -1;
    size_t length = fread(text, 1, most, file);
    int failed = ferror(file);
    fclose(file);
    text[length] = '\0';
    return failed ? -1 : (long)length;
}

int main(int count, char **arguments)
{
    /* One byte more than a sheet may have, so that a longer file is refused and not cut. */
    static char sheet[LK_MOST_SHEET_BYTES + 2];
    static struct lk_segment records[LK_MOST_RECORDS];
    uint32_t chain[LK_MOST_CANDIDATES];

    if (count != 2) {
        fprintf(stderr, "assemble SHEET\n");
        return 2;
    }
    long length = read_file(arguments[1], sheet, LK_MOST_SHEET_BYTES + 1);
    if (length < 0) {
        perror(arguments[1]);
        return 2;
    }
    struct lk_reply reply =
        lk_assemble((const uint8_t *)sheet, (size_t)length, chain, LK_MOST_CANDIDATES);
    if (reply.number != LK_DONE) {
        print_refusal(sheet, reply);
        return 1;
    }
    print_structure(sheet, reply, chain);
    size_t segments = read_segments(sheet, records);
    if (segments > 0)
        score_first_region(records, segments);
    return 0;
}
