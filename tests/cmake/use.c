/* What tests/install builds against an installed tree, as C and as C++. It uses the helpers and both archives: it reads
 * a count that it wrote, begins to send, and prints the header's version. */
#include <stdio.h>

#include "lagumtay.h"
#include "lagumtay_queue.h"

enum { M = 1, Q = 1, N = 2, PLACES = 1 };

static const uint16_t bases[M] = {10};
static uint8_t page[LAGUMTAY_PAGE_LEN(LAGUMTAY_FOLDED, M, Q, N)], buffer[N];
static const uint8_t record[N] = {'a', 'b'};

static int page_works(void) {
    const lagumtay_format format = {Q, 10, LAGUMTAY_FOLDED, N, 1};
    lagumtay_writer writer;
    lagumtay_reader reader;
    uint8_t commands[4 * LAGUMTAY_LONGEST_COMMAND], log[LAGUMTAY_LOG_LEN(1)];
    size_t len = lagumtay_put_write_count(commands, 7);
    len += lagumtay_put_writer_step(commands + len);
    len += lagumtay_put_begin_count_read(commands + len, 0);
    len += lagumtay_put_reader_step(commands + len, 0);
    lagumtay_answer answer;
    if (lagumtay_open(&format, bases, M, page, sizeof page, &writer, &reader, 1, buffer, N, 0, record, N) != LAGUMTAY_OK
        || lagumtay_run(&format, bases, M, page, sizeof page, &writer, &reader, 1, buffer, N, record, N, commands, len,
                        log, sizeof log, &answer) != LAGUMTAY_OK)
        return 0;
    lagumtay_outcome entry;
    size_t at = 0;
    return lagumtay_next_entry(log, answer.written, &at, &entry) && lagumtay_shown(&entry, LAGUMTAY_LOW) == 7;
}

static int queue_works(void) {
    const lagumtay_queue_format format = {N, PLACES};
    uint8_t queue[LAGUMTAY_QUEUE_LEN(M, PLACES, N)];
    lagumtay_queue_sender sender;
    lagumtay_queue_receiver receiver;
    return lagumtay_queue_open(&format, bases, M, queue, sizeof queue, &sender, &receiver) == LAGUMTAY_QUEUE_OK
           && lagumtay_queue_send_begin(&format, bases, M, queue, sizeof queue, &sender, record, N, 0)
                  == LAGUMTAY_QUEUE_OK
           && sender.kind == LAGUMTAY_QUEUE_ACTS;
}

int main(void) {
    if (!page_works() || !queue_works())
        return 1;
    printf("%s\n", LAGUMTAY_VERSION);
    return 0;
}
