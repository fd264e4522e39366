/* A hall's page from C: one count and two records are written, read back by two readers, and printed.
 *
 *     cc -std=c11 -O2 -Iinclude examples/hall.c target/staticlib/liblagumtay.a -o target/hall && target/hall
 */
#include <inttypes.h>
#include <stdio.h>
#include <string.h>

#include "lagumtay.h"

enum { M = 2, Q = 1, N = 8, READERS = 2, BOARD = 0, DESK = 1 };
enum { COUNT_STEPS = LAGUMTAY_COUNT_STEPS(LAGUMTAY_PLAIN, M), RECORD_STEPS = LAGUMTAY_RECORD_STEPS(Q, N) };
enum { MOST_COMMANDS = 2 * (1 + RECORD_STEPS) };

static const lagumtay_format format = {.q = Q, .base = 256, .layout = LAGUMTAY_PLAIN, .n = N, .readers = READERS};
static const uint16_t bases[M] = {24, 60}; /* hours and minutes */
static const char *records = "batch 17batch 18";

static uint8_t page[LAGUMTAY_PAGE_LEN(LAGUMTAY_PLAIN, M, Q, N)];
static lagumtay_writer writer;
static lagumtay_reader readers[READERS];
static uint8_t buffers[READERS * N];

/* The commands of a run. */
static uint8_t commands[MOST_COMMANDS * LAGUMTAY_LONGEST_COMMAND];
static size_t length;

static void add(lagumtay_command command, size_t times) {
    while (times-- > 0)
        length += lagumtay_put_command(commands + length, command);
}

/* A count in hours and minutes. */
#define TIME "%02" PRIu64 ":%02" PRIu64
#define IN_TIME(count) (count) / 60, (count) % 60

/* The hall board names the high end: it begins its count reads by 0D. A log does not tell what began a read. A record
 * is in its reader's buffer: no run here has two record reads of one reader. */
static void print_entry(const lagumtay_outcome *entry) {
    const unsigned who = entry->reader;
    const uint64_t shown = lagumtay_shown(entry, LAGUMTAY_HIGH);
    switch (entry->kind) {
    case LAGUMTAY_SHOWN:
        printf("reader %u shows " TIME "\n", who, IN_TIME(shown));
        break;
    case LAGUMTAY_BETWEEN:
        printf("reader %u shows " TIME " (between " TIME " and " TIME ")\n", who, IN_TIME(shown), IN_TIME(entry->low),
               IN_TIME(entry->high));
        break;
    case LAGUMTAY_ACCEPTED:
        printf("reader %u accepts version %" PRIu32 " after %u attempt(s): %.*s\n", who, entry->version,
               entry->attempts, N, (const char *)buffers + who * N);
        break;
    case LAGUMTAY_GAVE_UP:
        printf("reader %u gives up after %u attempt(s)\n", who, entry->attempts);
    }
}

/* Run the commands and print what was read; gives the refusal. */
static uint8_t run(void) {
    uint8_t log[LAGUMTAY_LOG_LEN(MOST_COMMANDS)];
    lagumtay_answer answer;
    uint8_t refusal = lagumtay_run(&format, bases, M, page, sizeof page, &writer, readers, READERS, buffers,
                                   sizeof buffers, (const uint8_t *)records, strlen(records), commands, length, log,
                                   sizeof log, &answer);
    lagumtay_outcome entry;
    for (size_t at = 0; lagumtay_next_entry(log, answer.written, &at, &entry);)
        print_entry(&entry);
    if (refusal != LAGUMTAY_OK)
        printf("command %zu is refused: %s\n", answer.done + 1, lagumtay_refusal_text(refusal));
    return refusal;
}

int main(void) {
    uint8_t refusal = lagumtay_open(&format, bases, M, page, sizeof page, &writer, readers, READERS, buffers,
                                    sizeof buffers, 11 * 60 + 57, (const uint8_t *)"opening.", N);
    if (refusal != LAGUMTAY_OK) {
        printf("the opening is refused: %s\n", lagumtay_refusal_text(refusal));
        return 1;
    }

    /* The board reads the first copy, 11:57; then 12:04 is written; then the board goes on with the second copy. The
       copies part, and it ends between 11:59 and 12:00, though nobody wrote these: the high end is shown. It reads
       again, and shows 12:04. */
    add(lagumtay_make_begin_high_count_read(BOARD), 1);
    add(lagumtay_make_reader_step(BOARD), M);
    add(lagumtay_make_write_count(12 * 60 + 4), 1);
    add(lagumtay_make_writer_step(), COUNT_STEPS);
    add(lagumtay_make_reader_step(BOARD), M);
    add(lagumtay_make_begin_high_count_read(BOARD), 1);
    add(lagumtay_make_reader_step(BOARD), COUNT_STEPS);
    if (run() != LAGUMTAY_OK)
        return 1;

    /* Record 1 of the lent ones is written; the desk reads it, with one attempt allowed. */
    length = 0;
    add(lagumtay_make_write_record(1), 1);
    add(lagumtay_make_writer_step(), RECORD_STEPS);
    add(lagumtay_make_begin_record_read(DESK, 1), 1);
    add(lagumtay_make_reader_step(DESK), RECORD_STEPS);
    if (run() != LAGUMTAY_OK)
        return 1;

    /* New tallies have come. They are lent while no record write is pending; record 1 of them is written and read. */
    if (writer.kind == LAGUMTAY_WRITES_RECORD)
        return 1;
    records = "batch 19batch 20";
    return run() != LAGUMTAY_OK;
}
