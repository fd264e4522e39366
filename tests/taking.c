/* When an accepted record must be taken from its reader's buffer: what writes over it, what does not, and that a run
 * which goes on to a second record read of the same reader has lost the first.
 *
 *     cc -std=c11 -Iinclude tests/taking.c target/staticlib/liblagumtay.a -o target/taking && target/taking
 */
#include "page.h"

enum { M = 2, Q = 1, N = 4, READERS = 2, WHO = 1, OTHER = 0 };
enum { COUNT_STEPS = LAGUMTAY_COUNT_STEPS(LAGUMTAY_PLAIN, M), RECORD_STEPS = LAGUMTAY_RECORD_STEPS(Q, N) };

static struct page page;
static uint8_t commands[256], log_bytes[LAGUMTAY_LOG_LEN(2)];
static size_t length;
static lagumtay_answer answer;

static void then(lagumtay_command command, size_t times) {
    while (times-- > 0)
        length += lagumtay_put_command(commands + length, command);
}

/* The commands in one run; none of them is refused. */
static void run_all(void) {
    check(run_page(&page, commands, length, log_bytes, sizeof log_bytes, &answer) == LAGUMTAY_OK, "a run");
    length = 0;
}

static void write_record(uint16_t index) {
    then(lagumtay_make_write_record(index), 1);
    then(lagumtay_make_writer_step(), RECORD_STEPS);
}

static void read_record(uint8_t reader) {
    then(lagumtay_make_begin_record_read(reader, 1), 1);
    then(lagumtay_make_reader_step(reader), RECORD_STEPS);
}

/* A page on which WHO has accepted record 0. */
static void accepted(void) {
    page = page_of(LAGUMTAY_PLAIN, M, Q, N, READERS, 10);
    check(open_page(&page) == LAGUMTAY_OK, "open");
    write_record(0);
    read_record(WHO);
    run_all();
}

static int holds(uint16_t index) {
    return memcmp(page.buffers + WHO * N, page.records + index * N, N) == 0;
}

/* Everything but a record read of its own leaves the buffer, and of that one the steps before the first byte. */
static void leaves_it(void) {
    accepted();
    write_record(1);
    read_record(OTHER);
    then(lagumtay_make_begin_count_read(WHO), 1);
    then(lagumtay_make_write_count(57), 1);
    then(lagumtay_make_writer_step(), COUNT_STEPS);
    then(lagumtay_make_reader_step(WHO), COUNT_STEPS);
    then(lagumtay_make_begin_high_count_read(WHO), 1);
    then(lagumtay_make_reader_step(WHO), COUNT_STEPS - 1);
    then(lagumtay_make_cancel_read(WHO), 1);
    then(lagumtay_make_begin_record_read(WHO, 1), 1);
    then(lagumtay_make_reader_step(WHO), Q);
    then(lagumtay_make_cancel_read(WHO), 1);
    run_all();
    check(holds(0), "the record is still there");
    then(lagumtay_make_begin_record_read(WHO, 1), 1);
    then(lagumtay_make_reader_step(WHO), Q + 1);
    run_all();
    check(!holds(0), "the first byte of the next record read is written over it");
}

/* Two record reads of one reader: in one run the log tells of both, and the first record is gone. Runs that end where
 * the attempts do have each. */
static void two_reads(void) {
    accepted();
    read_record(WHO);
    write_record(1);
    read_record(WHO);
    run_all();
    check(answer.written == 2 * LAGUMTAY_ACCEPTED_LEN, "two records are accepted");
    check(lagumtay_number_at(log_bytes + 3, 4) == 1, "the first is the record of version 1");
    check(holds(1) && !holds(0), "only the second is in the buffer");

    accepted();
    read_record(WHO);
    run_all();
    check(answer.written == LAGUMTAY_ACCEPTED_LEN && holds(0), "the first record after its run");
    write_record(1);
    read_record(WHO);
    run_all();
    check(answer.written == LAGUMTAY_ACCEPTED_LEN && holds(1), "the second record after its run");
}

int main(void) {
    leaves_it();
    two_reads();
    return all_passed();
}
