/* Lists of length 0 with no memory behind them, and lengths that are one too long or too short, the log's among them:
 * each call answers a refusal, and all that is lent stays as it was.
 *
 *     cc -std=c11 -Iinclude tests/empty.c target/staticlib/liblagumtay.a -o target/empty && target/empty
 */
#include "check.h"
#include "lagumtay.h"

enum { M = 2, Q = 1, N = 4, READERS = 2, PAGE = 2 * M + 2 * Q + N };

/* What a call is lent, with room for one element more of each. */
struct lent {
    lagumtay_format format;
    uint16_t bases[M + 1];
    uint8_t page[PAGE + 1];
    lagumtay_writer writer;
    lagumtay_reader readers[READERS + 1];
    uint8_t buffers[READERS * N + 1];
    uint8_t record[N + 1];
    uint8_t log[18];
    uint8_t packed[READERS * 28 + 1];
};

/* The lengths that a call is told; a negative one is a null pointer with length 0. */
struct lengths {
    int bases, page, readers, buffers, record, packed;
};

static const struct lengths right = {M, PAGE, READERS, READERS * N, N, READERS * 28};
static struct lent lent;

#define LIST(list, length) ((length) < 0 ? NULL : (list)), ((length) < 0 ? 0 : (size_t)(length))

static uint8_t opening(struct lengths l) {
    return lagumtay_open(&lent.format, LIST(lent.bases, l.bases), LIST(lent.page, l.page), &lent.writer,
                         LIST(lent.readers, l.readers), LIST(lent.buffers, l.buffers), 5, LIST(lent.record, l.record));
}

/* The record is the one lent record; a second one may not be cut short. */
static uint8_t run(struct lengths l) {
    static const uint8_t commands[] = {4, 0, 3};
    lagumtay_answer answer = {9, 9, 9};
    uint8_t why = lagumtay_run(&lent.format, LIST(lent.bases, l.bases), LIST(lent.page, l.page), &lent.writer,
                               LIST(lent.readers, l.readers), LIST(lent.buffers, l.buffers),
                               LIST(lent.record, l.record), commands, sizeof commands, lent.log, sizeof lent.log,
                               &answer);
    if (why <= LAGUMTAY_INVALID_STATE)
        check_at(answer.done == 0 && answer.written == 0 && answer.taken == 0, "run",
                 "a run refused at its start answers zeros");
    return why;
}

/* A step of reader 0. */
static uint8_t step(struct lengths l) {
    static const lagumtay_command command = {.kind = 6, .reader = 0};
    lagumtay_outcome outcome = {9, 9, 9, 9, 9, 9, 9, 9};
    uint8_t why = lagumtay_step(&lent.format, LIST(lent.bases, l.bases), LIST(lent.page, l.page), &lent.writer,
                                LIST(lent.readers, l.readers), LIST(lent.buffers, l.buffers),
                                LIST(lent.record, l.record), &command, &outcome);
    check_at(outcome.kind == 0 && outcome.reader == 0 && outcome.attempts == 0 && outcome.choice == 0
                 && outcome.version == 0 && outcome.count == 0 && outcome.low == 0 && outcome.high == 0, "step",
             "a step that ends no read tells zeros");
    return why;
}

static uint8_t cancel(struct lengths l) {
    return lagumtay_cancel(&lent.format, LIST(lent.bases, l.bases), LIST(lent.page, l.page), &lent.writer,
                           LIST(lent.readers, l.readers), LIST(lent.buffers, l.buffers), LIST(lent.record, l.record),
                           1);
}

static uint8_t pack(struct lengths l) {
    return lagumtay_pack(LIST(lent.readers, l.readers), LIST(lent.packed, l.packed));
}

static uint8_t unpack(struct lengths l) {
    return lagumtay_unpack(LIST(lent.readers, l.readers), LIST(lent.packed, l.packed));
}

/* Commands with so much room in the log; what they answer must be the refusal or 0, and what is written. */
static void logged(const uint8_t *commands, size_t length, int room, uint8_t why, size_t written, const char *what) {
    lagumtay_answer answer = {9, 9, 9};
    check_at(lagumtay_run(&lent.format, lent.bases, M, lent.page, PAGE, &lent.writer, lent.readers, READERS,
                          lent.buffers, READERS * N, NULL, 0, commands, length, LIST(lent.log, room), &answer) == why,
             "run", what);
    check_at(answer.written == written, "run", what);
}

/* The last step of reader 0's count read makes an entry of this size: any room below it is too little, it is enough. */
static void room_for(int size, const char *what) {
    static const uint8_t last[] = {6, 0};
    struct lent before = lent;
    for (int room = -1; room < size; room++) {
        logged(last, sizeof last, room, LAGUMTAY_LOG_FULL, 0, what);
        check_at(memcmp(&before, &lent, sizeof lent) == 0, "run", "a step without room has changed something");
    }
    logged(last, sizeof last, size, LAGUMTAY_OK, size, what);
}

/* Count reads begun by this command, of copies that are equal, and of copies that part: 0:06 is written after the first
 * copy was read. */
static void rooms(uint8_t begin) {
    const uint8_t reading[] = {begin, 0, 6, 0, 6, 0}, step[] = {6, 0};
    static const uint8_t writing[] = {1, 0, 0, 0, 0, 0, 0, 0, 6, 3, 3, 3, 3};
    check_at(opening(right) == LAGUMTAY_OK, "open", "for the logs");
    logged(reading, sizeof reading, -1, LAGUMTAY_OK, 0, "a read without a log");
    logged(step, sizeof step, -1, LAGUMTAY_OK, 0, "a read without a log");
    room_for(10, "a count shown");
    logged(reading, sizeof reading, -1, LAGUMTAY_OK, 0, "a read without a log");
    logged(writing, sizeof writing, -1, LAGUMTAY_OK, 0, "a write without a log");
    logged(step, sizeof step, -1, LAGUMTAY_OK, 0, "a read without a log");
    room_for(18, "copies that part");
}

/* The four padding bytes of a state hold nothing and no promise speaks of them: a call may write them. This archive
 * writes none of them, which is seen here only so that another one is noticed. */
static void padding(const char *call) {
    for (size_t r = 0; r < READERS; r++)
        for (size_t k = offsetof(lagumtay_reader, choice) + 1; k < offsetof(lagumtay_reader, steps); k++)
            check_at(((const uint8_t *)&lent.readers[r])[k] == 0xaa, call, "padding is touched");
}

/* Each length of the call, from the first on and before the last, in turn is none, one less and one more. */
static void lengths_of(const char *call, uint8_t (*answer)(struct lengths), int first, int last) {
    static const char *const names[] = {"bases", "page", "readers", "buffers", "record", "packed"};
    for (int which = first; which < last; which++)
        for (int change = 0; change < 3; change++) {
            struct lengths l = right;
            int *length = (int *[]){&l.bases, &l.page, &l.readers, &l.buffers, &l.record, &l.packed}[which];
            *length = change == 0 ? -1 : change == 1 ? *length - 1 : *length + 1;
            /* No base at all is no format; of another number of bases the page has not the length, or the third base,
             * 0, is none. */
            int bad_format = which == 0 && change != 1;
            struct lent before = lent;
            check_at(answer(l) == (bad_format ? LAGUMTAY_BAD_FORMAT : LAGUMTAY_WRONG_LENGTH), call, names[which]);
            check_at(memcmp(&before, &lent, sizeof lent) == 0, call, "a refused call has changed something");
        }
}

int main(void) {
    lent.format = (lagumtay_format){.q = Q, .base = 256, .layout = LAGUMTAY_PLAIN, .n = N, .readers = READERS};
    lent.bases[0] = 24;
    lent.bases[1] = 60;
    memcpy(lent.record, "abcd", N);
    /* An opening does not ask what the states hold. */
    memset(lent.readers, 0xaa, sizeof lent.readers);

    lengths_of("open", opening, 0, 5);
    check_at(opening(right) == LAGUMTAY_OK, "open", "the right lengths");
    padding("open");

    /* Records may be none; then there is none to write. */
    lengths_of("run", run, 0, 4);
    struct lengths cut = right;
    cut.record = N - 1;
    check_at(run(cut) == LAGUMTAY_WRONG_LENGTH, "run", "records that end in the middle");
    cut.record = -1;
    check_at(run(cut) == LAGUMTAY_NOTHING_PENDING, "run", "no records");
    check_at(lent.readers[0].kind == 1, "run", "the command before the refused one is carried out");
    padding("run");

    lengths_of("step", step, 0, 4);
    cut.record = N - 1;
    check_at(step(cut) == LAGUMTAY_WRONG_LENGTH, "step", "records that end in the middle");
    cut.record = -1;
    check_at(step(cut) == LAGUMTAY_OK, "step", "no records");
    check_at(lent.readers[0].steps == 1, "step", "a step is carried out");
    padding("step");

    lengths_of("cancel", cancel, 0, 4);
    check_at(cancel(right) == LAGUMTAY_NOTHING_PENDING, "cancel", "nothing to cancel");
    padding("cancel");

    lengths_of("pack", pack, 2, 3);
    lengths_of("pack", pack, 5, 6);
    check_at(pack(right) == LAGUMTAY_OK, "pack", "the right lengths");
    check_at(lent.packed[0] == 1 && lent.packed[3] == 0 && lent.packed[11] == 1 && lent.packed[28] == 0, "pack",
             "the states");
    lengths_of("unpack", unpack, 2, 3);
    lengths_of("unpack", unpack, 5, 6);
    lent.packed[3] = LAGUMTAY_HIGH;
    lent.packed[11] = 2;
    check_at(unpack(right) == LAGUMTAY_OK, "unpack", "the right lengths");
    check_at(lent.readers[0].kind == 1 && lent.readers[0].choice == LAGUMTAY_HIGH && lent.readers[0].steps == 2,
             "unpack", "the states");
    padding("unpack");
    const struct lengths none = {-1, -1, -1, -1, -1, -1};
    check_at(pack(none) == LAGUMTAY_OK && unpack(none) == LAGUMTAY_OK, "pack", "no states in no bytes");
    rooms(4);
    rooms(0x0D);
    return all_passed();
}
