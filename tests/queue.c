/* The hand-over queue: where the archive finds and puts the fields of its structs, every length, a whole hand-over step
 * by step, gatherings that meet the other side, and the header's constants and texts.
 *
 *     cc -std=c11 -Iinclude tests/queue.c target/staticlib/liblagumtay_queue.a -o target/test && target/test
 */
#include "check.h"
#include "lagumtay.h" /* both headers can be used in one file */
#include "lagumtay_queue.h"

enum { M = 2, N = 3, PLACES = 2, QUEUE = 2 * M + PLACES * N, STEPS = 2 * M + N };
enum { SERIAL = 0, STEPS_TAKEN = 8, KIND = 16, DIGITS = 24, INDEX = 32 }; /* offsets of fields */

static const uint16_t bases[M + 1] = {24, 60, 0};
static const uint8_t records[] = "abcdefghi";
enum { RECORDS = sizeof records - 1 };

/* What the calls are lent, the states as bytes, so that no compiler's idea of the structs is involved. Queue and buffer
 * have a byte more than is lent, which none may touch. */
static struct memory {
    _Alignas(8) uint8_t format[16];
    _Alignas(8) uint8_t sender[40];
    _Alignas(8) uint8_t receiver[32];
    uint8_t queue[QUEUE + 1];
    uint8_t buffer[N + 1];
} lent;

/* The lengths that a call is told; those of the others are 0. */
struct lengths {
    size_t bases, queue, records, buffer;
};
static const struct lengths right = {M, QUEUE, RECORDS, N};

/* All fields but the digits have 8 bytes. */
static uint64_t word(const uint8_t *bytes, size_t offset) {
    return at(bytes, offset, 8);
}

static void put_word(uint8_t *bytes, size_t offset, uint64_t x) {
    put(bytes, offset, x, 8);
}

/* A pointer that goes with length 0 is not followed. */
static const uint8_t *lend(const uint8_t *bytes, size_t length) {
    return length == 0 ? (const uint8_t *)1 : bytes;
}

#define FORMAT (const lagumtay_queue_format *)lent.format
#define SENDER (lagumtay_queue_sender *)lent.sender
#define RECEIVER (lagumtay_queue_receiver *)lent.receiver
#define READ FORMAT, bases, l.bases, lend(lent.queue, l.queue), l.queue
#define WRITE FORMAT, bases, l.bases, (uint8_t *)lend(lent.queue, l.queue), l.queue
#define FROM lend(records, l.records), l.records

static uint8_t opening(struct lengths l) {
    return lagumtay_queue_open(WRITE, SENDER, RECEIVER);
}
static uint8_t send_begin(struct lengths l) {
    return lagumtay_queue_send_begin(READ, SENDER, FROM, 1);
}
static uint8_t send_step(struct lengths l) {
    return lagumtay_queue_send_step(WRITE, SENDER, FROM);
}
static uint8_t send_cancel(struct lengths l) {
    return lagumtay_queue_send_cancel(READ, SENDER, FROM);
}
static uint8_t receive_begin(struct lengths l) {
    return lagumtay_queue_receive_begin(READ, RECEIVER, lend(lent.buffer, l.buffer), l.buffer);
}
static uint8_t receive_step(struct lengths l) {
    return lagumtay_queue_receive_step(WRITE, RECEIVER, (uint8_t *)lend(lent.buffer, l.buffer), l.buffer);
}
static uint8_t receive_cancel(struct lengths l) {
    return lagumtay_queue_receive_cancel(READ, RECEIVER, lend(lent.buffer, l.buffer), l.buffer);
}

/* All calls, and whether they are the sender's or the receiver's. */
static const struct call {
    const char *name;
    uint8_t (*make)(struct lengths);
    int sends, receives;
} calls[] = {
    {"open", opening, 0, 0},
    {"send_begin", send_begin, 1, 0},
    {"send_step", send_step, 1, 0},
    {"send_cancel", send_cancel, 1, 0},
    {"receive_begin", receive_begin, 0, 1},
    {"receive_step", receive_step, 0, 1},
    {"receive_cancel", receive_cancel, 0, 1},
};
enum { CALLS = sizeof calls / sizeof *calls };

/* A refused call changes nothing. */
static void refused(struct call call, struct lengths l, uint8_t why, const char *what) {
    struct memory before = lent;
    uint8_t answer = call.make(l);
    if (answer != why)
        printf("%s answers %u: ", call.name, answer);
    check(answer == why, what);
    check(memcmp(&before, &lent, sizeof lent) == 0, "a refused call has changed something");
}

/* Steps that are not refused. */
static void steps(uint8_t (*step)(struct lengths), int times) {
    while (times-- > 0)
        check(step(right) == LAGUMTAY_QUEUE_OK, "a step is refused");
}

static void open_over_garbage(void) {
    memset(&lent, 0xaa, sizeof lent);
    put_word(lent.format, 0, N);
    put_word(lent.format, 8, PLACES);
    check(opening(right) == LAGUMTAY_QUEUE_OK, "the opening is refused");
    static const struct memory zero;
    check(memcmp(lent.queue, zero.queue, QUEUE) == 0, "the queue that was opened");
    check(memcmp(lent.sender, zero.sender, sizeof lent.sender) == 0, "the sender that was opened");
    check(memcmp(lent.receiver, zero.receiver, sizeof lent.receiver) == 0, "the receiver that was opened");
    check(lent.queue[QUEUE] == 0xaa && lent.buffer[0] == 0xaa, "what an opening is not lent");
}

/* Both numbers, as two digits each. */
static void numbers(int sent, int received) {
    lent.queue[0] = (uint8_t)(sent / 60);
    lent.queue[1] = (uint8_t)(sent % 60);
    lent.queue[2] = (uint8_t)(received / 60);
    lent.queue[3] = (uint8_t)(received % 60);
}

static void number_is(int from, int number, const char *what) {
    check(lent.queue[from] * 60 + lent.queue[from + 1] == number, what);
}

/* One hand-over, with every byte after every step: 59 becomes 60, and place 59 mod 2 is the second. */
static void hand_over(void) {
    open_over_garbage();
    numbers(59, 59);
    check(send_begin(right) == LAGUMTAY_QUEUE_OK, "a sending begins");
    check(word(lent.sender, SERIAL) == 59 && word(lent.sender, KIND) == 1 && word(lent.sender, INDEX) == 1,
          "its fields");
    for (int step = 1; step <= STEPS; step++) {
        steps(send_step, 1);
        check(word(lent.sender, STEPS_TAKEN) == (step < STEPS ? (uint64_t)step : 0), "sender.steps");
        for (int byte = 0; byte < N; byte++)
            check(lent.queue[2 * M + N + byte] == (step > M + byte ? records[N + byte] : 0), "a byte is put in");
        number_is(0, step <= M + N ? 59 : step == M + N + 1 ? 0 : 60, "sent is written right to left");
    }
    number_is(M, 59, "the sender does not write received");
    check(word(lent.sender, KIND) == 0 && word(lent.sender, SERIAL) == 0 && word(lent.sender, INDEX) == 0,
          "an idle sender");

    check(receive_begin(right) == LAGUMTAY_QUEUE_OK, "a receiving begins");
    check(word(lent.receiver, SERIAL) == 59 && word(lent.receiver, KIND) == 1, "its fields");
    for (int step = 1; step <= STEPS; step++) {
        steps(receive_step, 1);
        check(word(lent.receiver, STEPS_TAKEN) == (step < STEPS ? (uint64_t)step : 0), "receiver.steps");
        check(lent.receiver[DIGITS] == (step == 1), "receiver.digits: kept until the last one is gathered");
        for (int byte = 0; byte < N; byte++)
            check(lent.buffer[byte] == (step > M + byte ? records[N + byte] : 0xaa), "a byte is copied out");
        number_is(M, step <= M + N ? 59 : step == M + N + 1 ? 0 : 60, "received is written right to left");
    }
    check(word(lent.receiver, KIND) == 0 && word(lent.receiver, SERIAL) == 0, "an idle receiver");
    check(lent.queue[QUEUE] == 0xaa && lent.buffer[N] == 0xaa, "a byte behind what is lent");
}

/* A value that no steps could leave is seen in each field, by the side whose field it is, and by it alone. */
static void fields(void) {
    static const size_t offsets[] = {SERIAL, STEPS_TAKEN, KIND, DIGITS, DIGITS + 7, INDEX};
    for (size_t i = 0; i < sizeof offsets / sizeof *offsets; i++)
        for (int sender = 0; sender < 2; sender++) {
            if (!sender && offsets[i] == INDEX)
                continue;
            open_over_garbage();
            (sender ? lent.sender : lent.receiver)[offsets[i]] = 2;
            for (int c = 1; c < CALLS; c++)
                if (sender ? calls[c].sends : calls[c].receives)
                    refused(calls[c], right, LAGUMTAY_QUEUE_INVALID_STATE, "a state that no steps could hold");
            check((sender ? receive_begin : send_begin)(right) == LAGUMTAY_QUEUE_OK, "the other side looks at it");
        }
    /* All bytes of the format's numbers count; 128 more in the lowest one may still be in range. */
    for (size_t byte = 1; byte < 16; byte++) {
        open_over_garbage();
        lent.format[byte] ^= 0x80;
        for (int c = 0; c < CALLS; c++)
            refused(calls[c], right, LAGUMTAY_QUEUE_BAD_FORMAT, "a number of the format outside its range");
    }
}

/* Each length of a call in turn is none, one less and one more. */
static void lengths(void) {
    open_over_garbage();
    for (int c = 0; c < CALLS; c++)
        for (int which = 0; which < 4; which++)
            for (int change = 0; change < 3; change++) {
                struct lengths l = right;
                size_t *length = (size_t *[]){&l.bases, &l.queue, &l.records, &l.buffer}[which];
                *length = change == 0 ? 0 : change == 1 ? *length - 1 : *length + 1;
                if ((which == 2 && !calls[c].sends) || (which == 3 && !calls[c].receives))
                    continue;
                /* There may be no records: then there is none to send, and without a sending nothing to do. */
                if (which == 2 && change == 0)
                    refused(calls[c], l, calls[c].make == send_begin ? LAGUMTAY_QUEUE_NO_SUCH
                                                                     : LAGUMTAY_QUEUE_NOTHING_PENDING, "no records");
                else
                    /* No base at all, and a third one that is 0, are no format. */
                    refused(calls[c], l, which == 0 && change != 1 ? LAGUMTAY_QUEUE_BAD_FORMAT
                                                                   : LAGUMTAY_QUEUE_WRONG_LENGTH, "a length");
            }
}

static const struct call *named(const char *name) {
    for (int c = 0; c < CALLS; c++)
        if (strcmp(calls[c].name, name) == 0)
            return &calls[c];
    abort();
}

static void is_refused(const char *name, uint8_t why, const char *what) {
    refused(*named(name), right, why, what);
}

/* Refusals of either side's acts, in their order. */
static void acts(void) {
    open_over_garbage();
    is_refused("send_step", LAGUMTAY_QUEUE_NOTHING_PENDING, "a step of nothing");
    is_refused("send_cancel", LAGUMTAY_QUEUE_NOTHING_PENDING, "a cancel of nothing");
    is_refused("receive_step", LAGUMTAY_QUEUE_NOTHING_PENDING, "a step of nothing");
    is_refused("receive_cancel", LAGUMTAY_QUEUE_NOTHING_PENDING, "a cancel of nothing");
    check(send_begin(right) == LAGUMTAY_QUEUE_OK && receive_begin(right) == LAGUMTAY_QUEUE_OK, "both begin");
    is_refused("send_begin", LAGUMTAY_QUEUE_BUSY, "a second sending");
    is_refused("receive_begin", LAGUMTAY_QUEUE_BUSY, "a second receiving");
    check(lagumtay_queue_send_begin(FORMAT, bases, M, lent.queue, QUEUE, SENDER, records, RECORDS, 3)
              == LAGUMTAY_QUEUE_NO_SUCH, "8 before 6");
    for (int taken = 0; taken < STEPS; taken++) {
        struct memory before = lent;
        if (taken <= M) {
            check(send_cancel(right) == LAGUMTAY_QUEUE_OK && word(lent.sender, KIND) == 0, "a cancel before any byte");
            lent = before;
        } else
            is_refused("send_cancel", LAGUMTAY_QUEUE_NOTHING_PENDING, "a cancel after a byte is moved");
        steps(send_step, 1);
    }
    numbers(24 * 60 - 1, 0);
    is_refused("send_begin", LAGUMTAY_QUEUE_SERIALS_EXHAUSTED, "the top number");
    for (int place = 0; place < 2 * M; place++) {
        numbers(0, 0);
        lent.queue[place] = (uint8_t)bases[place % M];
        for (int c = 1; c < CALLS; c++)
            refused(calls[c], right, LAGUMTAY_QUEUE_INVALID_STATE, "a digit at its base");
    }
}

/* Full, empty, and what a gathering sees that meets the other side: 59 becomes 60 between its two digits. */
static void gatherings(void) {
    open_over_garbage();
    numbers(61, 59);
    check(send_begin(right) == LAGUMTAY_QUEUE_OK, "a sending to a full queue");
    steps(send_step, 1);
    is_refused("send_step", LAGUMTAY_QUEUE_FULL, "two parcels in two places");
    check(receive_begin(right) == LAGUMTAY_QUEUE_OK, "a receiving");
    steps(receive_step, STEPS);
    is_refused("send_step", LAGUMTAY_QUEUE_FULL, "0 of 59 and 0 of 60 are gathered: full, though there is room");
    check(send_cancel(right) == LAGUMTAY_QUEUE_OK && send_begin(right) == LAGUMTAY_QUEUE_OK, "made afresh");
    steps(send_step, STEPS);

    numbers(59, 59);
    check(receive_begin(right) == LAGUMTAY_QUEUE_OK, "a receiving from an empty queue");
    steps(receive_step, 1);
    is_refused("receive_step", LAGUMTAY_QUEUE_EMPTY, "no parcel");
    check(send_begin(right) == LAGUMTAY_QUEUE_OK, "a sending");
    steps(send_step, STEPS);
    is_refused("receive_step", LAGUMTAY_QUEUE_EMPTY, "0 of 59 and 0 of 60 are gathered: empty, though a parcel is in");
    check(receive_cancel(right) == LAGUMTAY_QUEUE_OK && receive_begin(right) == LAGUMTAY_QUEUE_OK, "made afresh");
    steps(receive_step, STEPS);

    /* Of the same numbers a sender says that they are strange, and a receiver that there is no parcel. */
    numbers(5, 6);
    check(send_begin(right) == LAGUMTAY_QUEUE_OK && receive_begin(right) == LAGUMTAY_QUEUE_OK, "both begin");
    steps(send_step, 1);
    steps(receive_step, 1);
    is_refused("send_step", LAGUMTAY_QUEUE_INVALID_STATE, "more received than sent");
    is_refused("receive_step", LAGUMTAY_QUEUE_EMPTY, "less sent than received");
}

/* Open a queue of any numbers, which are in their ranges or one beyond, with so many bytes. */
static uint8_t opens(size_t m, size_t places, size_t n, uint16_t base, size_t len) {
    static uint8_t bytes[LAGUMTAY_QUEUE_LEN(LAGUMTAY_QUEUE_MAX_M + 1, LAGUMTAY_QUEUE_MAX_PLACES + 1,
                                            LAGUMTAY_QUEUE_MAX_N + 1)];
    const lagumtay_queue_format format = {.n = n, .places = places};
    uint16_t all[LAGUMTAY_QUEUE_MAX_M + 1];
    for (size_t i = 0; i < LAGUMTAY_QUEUE_MAX_M + 1; i++)
        all[i] = base;
    snprintf(place, sizeof place, "m %zu, %zu places, n %zu, base %u, %zu bytes", m, places, n, base, len);
    return lagumtay_queue_open(&format, all, m, bytes, len, SENDER, RECEIVER);
}

/* The right length is accepted and one more or less is not, or the numbers are refused. */
static void opening_is(size_t m, size_t places, size_t n, uint16_t base, uint8_t why) {
    const size_t right_len = LAGUMTAY_QUEUE_LEN(m, places, n);
    check(opens(m, places, n, base, right_len) == why, "the opening");
    if (why == LAGUMTAY_QUEUE_OK) {
        check(opens(m, places, n, base, right_len - 1) == LAGUMTAY_QUEUE_WRONG_LENGTH, "a byte too few");
        check(opens(m, places, n, base, right_len + 1) == LAGUMTAY_QUEUE_WRONG_LENGTH, "a byte too many");
    }
}

static void constants(void) {
    const size_t m = LAGUMTAY_QUEUE_MAX_M, places = LAGUMTAY_QUEUE_MAX_PLACES, n = LAGUMTAY_QUEUE_MAX_N;
    opening_is(1, 1, 1, LAGUMTAY_QUEUE_MIN_BASE, LAGUMTAY_QUEUE_OK);
    opening_is(m, 1, 1, LAGUMTAY_QUEUE_MAX_BASE, LAGUMTAY_QUEUE_OK);
    opening_is(1, places, 3, LAGUMTAY_QUEUE_MAX_BASE, LAGUMTAY_QUEUE_OK);
    opening_is(2, 3, n, LAGUMTAY_QUEUE_MAX_BASE, LAGUMTAY_QUEUE_OK);
    opening_is(m + 1, 1, 1, 10, LAGUMTAY_QUEUE_BAD_FORMAT);
    opening_is(1, 0, 1, 10, LAGUMTAY_QUEUE_BAD_FORMAT);
    opening_is(1, places + 1, 1, 10, LAGUMTAY_QUEUE_BAD_FORMAT);
    opening_is(1, 1, 0, 10, LAGUMTAY_QUEUE_BAD_FORMAT);
    opening_is(1, 1, n + 1, 10, LAGUMTAY_QUEUE_BAD_FORMAT);
    opening_is(1, 1, 1, LAGUMTAY_QUEUE_MIN_BASE - 1, LAGUMTAY_QUEUE_BAD_FORMAT);
    opening_is(1, 1, 1, LAGUMTAY_QUEUE_MAX_BASE + 1, LAGUMTAY_QUEUE_BAD_FORMAT);
    strcpy(place, "");
    check(2 * LAGUMTAY_QUEUE_LEN(1 + 1, 1 + 1, 1 + 2) == 20, "any expression as an argument");
    check(2 * LAGUMTAY_QUEUE_STEPS(1 + 1, 1 | 5) == 18, "any expression as an argument");

    /* Both sides have as many steps as the constant says, and their kinds tell. */
    open_over_garbage();
    check(send_begin(right) == LAGUMTAY_QUEUE_OK, "a sending begins");
    steps(send_step, LAGUMTAY_QUEUE_STEPS(M, N) - 1);
    check(word(lent.sender, KIND) == LAGUMTAY_QUEUE_ACTS, "a sending with one step to come");
    steps(send_step, 1);
    check(word(lent.sender, KIND) == LAGUMTAY_QUEUE_IDLE, "a sending that has ended");
    check(receive_begin(right) == LAGUMTAY_QUEUE_OK, "a receiving begins");
    steps(receive_step, LAGUMTAY_QUEUE_STEPS(M, N) - 1);
    check(word(lent.receiver, KIND) == LAGUMTAY_QUEUE_ACTS, "a receiving with one step to come");
    steps(receive_step, 1);
    check(word(lent.receiver, KIND) == LAGUMTAY_QUEUE_IDLE, "a receiving that has ended");
}

/* Every refusal of a queue has a text of its own, and all other numbers have one. */
static void texts(void) {
    const char *unknown = lagumtay_queue_refusal_text(255);
    for (unsigned i = 0; i < 256; i++) {
        const char *text = lagumtay_queue_refusal_text((uint8_t)i);
        int known = i <= 3 || (i >= 6 && i <= 9) || i == 13 || i == 14;
        check(text != NULL && strlen(text) > 5, "a refusal's text");
        check((strcmp(text, unknown) != 0) == known, "which numbers are refusals");
        for (unsigned k = 0; known && k < i; k++)
            check(strcmp(text, lagumtay_queue_refusal_text((uint8_t)k)) != 0, "texts that are the same");
    }
}

int main(void) {
    check(sizeof(lagumtay_queue_sender) == sizeof lent.sender, "the sender's size");
    check(sizeof(lagumtay_queue_receiver) == sizeof lent.receiver, "the receiver's size");
    hand_over();
    fields();
    lengths();
    acts();
    gatherings();
    constants();
    texts();
    return all_passed();
}
