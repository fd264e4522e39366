/* The constants of lagumtay.h, held to what the archive accepts and leaves: the ranges of a format, the lengths of
 * pages and of packed states, the steps of writes and reads, the room that entries take.
 *
 *     cc -std=c11 -Iinclude tests/constants.c target/staticlib/liblagumtay.a -o target/constants && target/constants
 *
 * It is C++ too: c++ -std=c++11 -x c++ tests/constants.c -x none ...
 */
#include "page.h"

static struct page page;

/* A page with these numbers; each is in its range or one beyond. Gives the opening's answer. */
static uint8_t opened(uint16_t layout, size_t m, size_t q, size_t n, size_t readers, uint16_t base) {
    snprintf(place, sizeof place, "layout %u, m %zu, q %zu, n %zu, %zu readers, base %u", layout, m, q, n, readers,
             base);
    page = page_of(layout, m, q, n, readers, base);
    return open_page(&page);
}

static void ranges(void) {
    const uint16_t low = LAGUMTAY_MIN_BASE, high = LAGUMTAY_MAX_BASE;
    for (uint16_t layout = LAGUMTAY_PLAIN; layout <= LAGUMTAY_FOLDED; layout++) {
        check(opened(layout, 1, 1, 1, 1, low) == LAGUMTAY_OK, "the least of each");
        check(opened(layout, LAGUMTAY_MAX_M, LAGUMTAY_MAX_Q, LAGUMTAY_MAX_N, LAGUMTAY_MAX_READERS, high)
                  == LAGUMTAY_OK, "the most of each");
        check(opened(layout, LAGUMTAY_MAX_M + 1, 1, 1, 1, low) == LAGUMTAY_BAD_FORMAT, "m above its range");
        check(opened(layout, 1, 0, 1, 1, low) == LAGUMTAY_BAD_FORMAT, "q below its range");
        check(opened(layout, 1, LAGUMTAY_MAX_Q + 1, 1, 1, low) == LAGUMTAY_BAD_FORMAT, "q above its range");
        check(opened(layout, 1, 1, 0, 1, low) == LAGUMTAY_BAD_FORMAT, "n below its range");
        check(opened(layout, 1, 1, LAGUMTAY_MAX_N + 1, 1, low) == LAGUMTAY_BAD_FORMAT, "n above its range");
        check(opened(layout, 1, 1, 1, 0, low) == LAGUMTAY_BAD_FORMAT, "readers below their range");
        check(opened(layout, 1, 1, 1, LAGUMTAY_MAX_READERS + 1, low) == LAGUMTAY_BAD_FORMAT, "readers above it");
        check(opened(layout, 1, 1, 1, 1, LAGUMTAY_MIN_BASE - 1) == LAGUMTAY_BAD_FORMAT, "a base below its range");
        check(opened(layout, 1, 1, 1, 1, LAGUMTAY_MAX_BASE + 1) == LAGUMTAY_BAD_FORMAT, "a base above its range");
    }
    check(opened(LAGUMTAY_FOLDED + 1, 1, 1, 1, 1, low) == LAGUMTAY_BAD_FORMAT, "a third layout");
    check(opened(LAGUMTAY_PLAIN, 1, 1, 1, 1, low) == LAGUMTAY_OK, "open");
    lagumtay_outcome outcome;
    check(step_page(&page, lagumtay_make_begin_record_read(0, 0), &outcome) == LAGUMTAY_NO_SUCH, "no attempts");
    quietly(&page, lagumtay_make_begin_record_read(0, LAGUMTAY_MAX_ATTEMPTS), 1);
    check(page.readers[0].allowed == LAGUMTAY_MAX_ATTEMPTS, "the most attempts");
    LAGUMTAY_ASSERT(LAGUMTAY_MAX_ATTEMPTS == UINT8_MAX);
}

/* The page's length is accepted, one more or less is not. */
static void page_length(void) {
    const size_t right = page.len;
    for (page.len = right - 1; page.len <= right + 1; page.len++)
        check(open_page(&page) == (page.len == right ? LAGUMTAY_OK : LAGUMTAY_WRONG_LENGTH), "the length of a page");
    page.len = right;
}

/* A write has so many steps, the last of which ends it. */
static void write_steps(lagumtay_command command, size_t steps) {
    quietly(&page, command, 1);
    quietly(&page, lagumtay_make_writer_step(), steps - 1);
    check(page.writer.kind != LAGUMTAY_WRITER_IDLE && page.writer.steps == steps - 1, "a write ends too early");
    quietly(&page, lagumtay_make_writer_step(), 1);
    check(page.writer.kind == LAGUMTAY_WRITER_IDLE, "a write ends too late");
}

static void read_steps(lagumtay_command command, size_t steps, uint8_t kind) {
    lagumtay_outcome outcome;
    quietly(&page, command, 1);
    quietly(&page, lagumtay_make_reader_step(0), steps - 1);
    check(page.readers[0].kind != LAGUMTAY_READER_IDLE, "a read ends too early");
    check(step_page(&page, lagumtay_make_reader_step(0), &outcome) == LAGUMTAY_OK, "the last step of a read");
    check(outcome.kind == kind && page.readers[0].kind == LAGUMTAY_READER_IDLE, "a read ends too late");
}

static void steps_of(uint16_t layout, size_t m, size_t q, size_t n) {
    check(opened(layout, m, q, n, 1, 10) == LAGUMTAY_OK, "open");
    page_length();
    write_steps(lagumtay_make_write_count(7), LAGUMTAY_COUNT_STEPS(layout, m));
    read_steps(lagumtay_make_begin_count_read(0), LAGUMTAY_COUNT_STEPS(layout, m), LAGUMTAY_SHOWN);
    write_steps(lagumtay_make_write_record(1), LAGUMTAY_RECORD_STEPS(q, n));
    read_steps(lagumtay_make_begin_record_read(0, 1), LAGUMTAY_RECORD_STEPS(q, n), LAGUMTAY_ACCEPTED);
}

static void lengths_and_steps(void) {
    static const size_t ns[] = {1, 2, 255, 256};
    for (uint16_t layout = LAGUMTAY_PLAIN; layout <= LAGUMTAY_FOLDED; layout++)
        for (size_t m = 1; m <= LAGUMTAY_MAX_M; m++)
            for (size_t q = 1; q <= LAGUMTAY_MAX_Q; q++)
                for (size_t i = 0; i < sizeof ns / sizeof *ns; i++)
                    steps_of(layout, m, q, ns[i]);
}

/* Macros are constants of constant arguments, stand in any expression, and evaluate each argument once. */
static void macros(void) {
    static uint8_t sized[LAGUMTAY_PAGE_LEN(LAGUMTAY_FOLDED, 3, 2, 5)], log[LAGUMTAY_LOG_LEN(3)];
    enum { STEPS = LAGUMTAY_COUNT_STEPS(LAGUMTAY_PLAIN, 3), OTHERS = LAGUMTAY_RECORD_STEPS(2, 5) };
    check(sizeof sized == 14 && sizeof log == 54 && STEPS == 6 && OTHERS == 9, "sizes by macros");
    check(2 * LAGUMTAY_PAGE_LEN(LAGUMTAY_PLAIN, 1 + 2, 1 + 1, 1 | 4) == 30, "any expression as an argument");
    check(2 * LAGUMTAY_COUNT_STEPS(LAGUMTAY_FOLDED, 1 + 2) == 10, "any expression as an argument");
    check(2 * LAGUMTAY_LOG_LEN(1 + 2) == 108, "any expression as an argument");
    size_t layout = LAGUMTAY_FOLDED, m = 3, q = 2, n = 5, steps = 3;
    check(LAGUMTAY_PAGE_LEN(layout++, m++, q++, n++) == 14 && LAGUMTAY_LOG_LEN(steps++) == 54, "variables");
    check(layout == 2 && m == 4 && q == 3 && n == 6 && steps == 4, "each argument is evaluated once");
}

/* The last step of reader 0's read makes an entry of this length; a log of one byte less has no room. The run that was
 * refused goes on from `taken`. */
static void entry_room(size_t len) {
    uint8_t commands[2 * LAGUMTAY_LONGEST_COMMAND], log[LAGUMTAY_LONGEST_ENTRY];
    size_t taken = lagumtay_put_begin_count_read(commands, 1);
    size_t commands_len = taken + lagumtay_put_reader_step(commands + taken, 0);
    lagumtay_answer answer;
    check(run_page(&page, commands, commands_len, log, len - 1, &answer) == LAGUMTAY_LOG_FULL, "too little room");
    check(answer.done == 1 && answer.taken == taken && answer.written == 0, "where a refused run goes on");
    check(run_page(&page, commands + taken, commands_len - taken, log, len, &answer) == LAGUMTAY_OK, "enough room");
    check(answer.written == len && lagumtay_entry_len(log[0]) == len, "the entry's length");
    quietly(&page, lagumtay_make_cancel_read(1), 1);
}

/* All steps of a read but the last; after some of them a write is made. */
static void all_but_one(lagumtay_command begin, size_t before, lagumtay_command write, size_t steps) {
    quietly(&page, begin, 1);
    quietly(&page, lagumtay_make_reader_step(0), before);
    quietly(&page, write, 1);
    quietly(&page, lagumtay_make_writer_step(), steps);
    quietly(&page, lagumtay_make_reader_step(0), steps - before - 1);
}

static void entries(void) {
    enum { M = 2, Q = 1, N = 3 };
    const size_t count_steps = LAGUMTAY_COUNT_STEPS(LAGUMTAY_PLAIN, M), record_steps = LAGUMTAY_RECORD_STEPS(Q, N);
    check(opened(LAGUMTAY_PLAIN, M, Q, N, 2, 10) == LAGUMTAY_OK, "open");
    all_but_one(lagumtay_make_begin_count_read(0), 0, lagumtay_make_write_count(5), count_steps);
    entry_room(LAGUMTAY_SHOWN_LEN);
    all_but_one(lagumtay_make_begin_count_read(0), M, lagumtay_make_write_count(30), count_steps);
    entry_room(LAGUMTAY_BETWEEN_LEN);
    all_but_one(lagumtay_make_begin_record_read(0, 1), 0, lagumtay_make_write_record(0), record_steps);
    entry_room(LAGUMTAY_ACCEPTED_LEN);
    all_but_one(lagumtay_make_begin_record_read(0, 1), Q, lagumtay_make_write_record(1), record_steps);
    entry_room(LAGUMTAY_GAVE_UP_LEN);
    LAGUMTAY_ASSERT(LAGUMTAY_LONGEST_ENTRY == LAGUMTAY_BETWEEN_LEN);
    LAGUMTAY_ASSERT(LAGUMTAY_LONGEST_COMMAND == LAGUMTAY_WRITE_COUNT_LEN);
}

static void packed(void) {
    enum { READERS = 3 };
    lagumtay_reader readers[READERS];
    uint8_t bytes[READERS * LAGUMTAY_PACKED + 1];
    memset(readers, 0, sizeof readers);
    for (size_t len = sizeof bytes - 2; len <= sizeof bytes; len++)
        check(lagumtay_pack(readers, READERS, bytes, len)
                  == (len == READERS * LAGUMTAY_PACKED ? LAGUMTAY_OK : LAGUMTAY_WRONG_LENGTH), "packed bytes");
}

static void version(void) {
    char text[32];
    snprintf(text, sizeof text, "%d.%d.%d", LAGUMTAY_VERSION_MAJOR, LAGUMTAY_VERSION_MINOR, LAGUMTAY_VERSION_PATCH);
    check(strcmp(text, LAGUMTAY_VERSION) == 0, "the version as text");
}

int main(void) {
    ranges();
    lengths_and_steps();
    macros();
    entries();
    packed();
    version();
    return all_passed();
}
