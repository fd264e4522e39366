/* The release desk's rack from C: batch envelopes go from the table to the desk; what becomes of them is printed.
 *
 *     cc -std=c11 -O2 -Iinclude examples/queue.c target/staticlib/liblagumtay_queue.a -o target/queue && target/queue
 */
#include <inttypes.h>
#include <stdio.h>

#include "lagumtay_queue.h"

enum { M = 2, N = 8, PLACES = 2 };
enum { MOVED = M + N }; /* steps after which a parcel is moved: a number is gathered, then the bytes go */

static const lagumtay_queue_format format = {.n = N, .places = PLACES};
static const uint16_t bases[M] = {10, 10}; /* numbers 00 to 99 */
static const uint8_t records[] = "batch 17batch 18batch 19batch 20";

static uint8_t queue[LAGUMTAY_QUEUE_LEN(M, PLACES, N)];
static lagumtay_queue_sender sender;
static lagumtay_queue_receiver receiver;
static uint8_t buffer[N];

/* The table begins to send a record. */
static uint8_t send_begin(size_t index) {
    uint8_t why = lagumtay_queue_send_begin(&format, bases, M, queue, sizeof queue, &sender, records,
                                            sizeof records - 1, index);
    if (why != LAGUMTAY_QUEUE_OK)
        printf("table: refused, %s\n", lagumtay_queue_refusal_text(why));
    return why;
}

/* A step of the table; a parcel is in with its last byte. */
static uint8_t send_step(void) {
    const lagumtay_queue_sender before = sender;
    uint8_t why = lagumtay_queue_send_step(&format, bases, M, queue, sizeof queue, &sender, records,
                                           sizeof records - 1);
    const char *name = (const char *)records + before.index * N;
    if (why == LAGUMTAY_QUEUE_FULL)
        printf("table: %.*s must wait, the rack is full\n", N, name);
    else if (why == LAGUMTAY_QUEUE_OK && before.steps + 1 == MOVED)
        printf("table: %.*s is in, parcel %" PRIu64 "\n", N, name, before.serial);
    return why;
}

/* A step of the desk; a parcel is out with its last byte, and whole in the buffer. */
static uint8_t receive_step(void) {
    const lagumtay_queue_receiver before = receiver;
    uint8_t why = lagumtay_queue_receive_step(&format, bases, M, queue, sizeof queue, &receiver, buffer, sizeof buffer);
    if (why == LAGUMTAY_QUEUE_EMPTY)
        printf("desk:  nothing to release, the rack is empty\n");
    else if (why == LAGUMTAY_QUEUE_OK && before.steps + 1 == MOVED)
        printf("desk:  parcel %" PRIu64 " is out, release %.*s\n", before.serial, N, (const char *)buffer);
    return why;
}

static uint8_t receive_begin(void) {
    return lagumtay_queue_receive_begin(&format, bases, M, queue, sizeof queue, &receiver, buffer, sizeof buffer);
}

/* A whole act of either side, as far as it goes; a gathering that is refused is abandoned. */
static void send_whole(size_t index) {
    if (send_begin(index) != LAGUMTAY_QUEUE_OK)
        return;
    while (sender.kind != LAGUMTAY_QUEUE_IDLE)
        if (send_step() != LAGUMTAY_QUEUE_OK)
            lagumtay_queue_send_cancel(&format, bases, M, queue, sizeof queue, &sender, records, sizeof records - 1);
}

static void receive_whole(void) {
    if (receive_begin() != LAGUMTAY_QUEUE_OK)
        return;
    while (receiver.kind != LAGUMTAY_QUEUE_IDLE)
        if (receive_step() != LAGUMTAY_QUEUE_OK)
            lagumtay_queue_receive_cancel(&format, bases, M, queue, sizeof queue, &receiver, buffer, sizeof buffer);
}

int main(void) {
    uint8_t why = lagumtay_queue_open(&format, bases, M, queue, sizeof queue, &sender, &receiver);
    if (why != LAGUMTAY_QUEUE_OK) {
        printf("the opening is refused: %s\n", lagumtay_queue_refusal_text(why));
        return 1;
    }
    /* Two places: the third envelope must wait until the desk has taken one. */
    send_whole(0);
    send_whole(1);
    send_whole(2);
    receive_whole();

    /* Both at once, the table's step first: one envelope goes in while another comes out. */
    if (send_begin(2) != LAGUMTAY_QUEUE_OK || receive_begin() != LAGUMTAY_QUEUE_OK)
        return 1;
    while (sender.kind != LAGUMTAY_QUEUE_IDLE || receiver.kind != LAGUMTAY_QUEUE_IDLE) {
        if (sender.kind != LAGUMTAY_QUEUE_IDLE && send_step() != LAGUMTAY_QUEUE_OK)
            return 1;
        if (receiver.kind != LAGUMTAY_QUEUE_IDLE && receive_step() != LAGUMTAY_QUEUE_OK)
            return 1;
    }

    /* The desk looks before the next envelope is in, and again when it is: only the last digit is gathered anew. */
    receive_whole();
    if (receive_begin() != LAGUMTAY_QUEUE_OK || receive_step() != LAGUMTAY_QUEUE_OK
        || receive_step() != LAGUMTAY_QUEUE_EMPTY)
        return 1;
    send_whole(3);
    while (receiver.kind != LAGUMTAY_QUEUE_IDLE)
        if (receive_step() != LAGUMTAY_QUEUE_OK)
            return 1;
    return 0;
}
