/* The sizes and offsets of the structs, seen by what the archive writes into their bytes and reads out of them.
 *
 *     cc -std=c11 -Iinclude tests/layout.c target/staticlib/liblagumtay.a -o target/layout && target/layout
 *
 * The header asserts the C side; here each field gets a value of its own, and its bytes must be where the archive looks.
 */
#include "check.h"
#include "lagumtay.h"

enum { M = 3, Q = 2, N = 5, READERS = 3 };

/* Bytes, so that no compiler's idea of the structs is involved. */
static _Alignas(8) uint8_t format[32], writer[32], readers[READERS * 32], answer[24];
static _Alignas(8) uint8_t command[16], outcome[32];
static const uint16_t bases[M] = {7, 8, 9};
static uint8_t page[2 * M + 2 * Q + N], buffers[READERS * N], records[3 * N], log_bytes[20];

static uint8_t opening(void) {
    static const uint8_t record[N] = "abcde";
    return lagumtay_open((const lagumtay_format *)format, bases, M, page, sizeof page, (lagumtay_writer *)writer,
                         (lagumtay_reader *)readers, READERS, buffers, sizeof buffers, 100, record, N);
}

static uint8_t run(const char *commands, size_t length, size_t room) {
    memset(answer, 0xee, sizeof answer);
    return lagumtay_run((const lagumtay_format *)format, bases, M, page, sizeof page, (lagumtay_writer *)writer,
                        (lagumtay_reader *)readers, READERS, buffers, sizeof buffers, records, sizeof records,
                        (const uint8_t *)commands, length, log_bytes, room, (lagumtay_answer *)answer);
}
#define RUN(commands) run(commands, sizeof(commands) - 1, sizeof log_bytes)

/* All bytes of a command that its kind does not ask for are 0xdd. */
static void order(uint64_t kind) {
    memset(command, 0xdd, sizeof command);
    put(command, 0, kind, 1);
}

static uint8_t step(void) {
    memset(outcome, 0xee, sizeof outcome);
    return lagumtay_step((const lagumtay_format *)format, bases, M, page, sizeof page, (lagumtay_writer *)writer,
                         (lagumtay_reader *)readers, READERS, buffers, sizeof buffers, records, sizeof records,
                         (const lagumtay_command *)command, (lagumtay_outcome *)outcome);
}

/* What the step told, field by field. */
static void told(uint64_t kind, uint64_t reader, uint64_t attempts, uint64_t choice, uint64_t version, uint64_t count,
                 uint64_t low, uint64_t high) {
    check(at(outcome, 0, 1) == kind, "outcome.kind");
    check(at(outcome, 1, 1) == reader, "outcome.reader");
    check(at(outcome, 2, 1) == attempts, "outcome.attempts");
    check(at(outcome, 3, 1) == choice, "outcome.choice");
    check(at(outcome, 4, 4) == version, "outcome.version");
    check(at(outcome, 8, 8) == count, "outcome.count");
    check(at(outcome, 16, 8) == low, "outcome.low");
    check(at(outcome, 24, 8) == high, "outcome.high");
}

/* Steps that end no read. */
static void quiet(int steps) {
    while (steps-- > 0) {
        check(step() == LAGUMTAY_OK, "step");
        told(0, 0, 0, 0, 0, 0, 0, 0);
    }
}

/* Each field of a command is seen where the archive looks for it, and each of an outcome where it is told. */
static void stepping(void) {
    memcpy(records, "fghijklmnopqrst", sizeof records);
    check(opening() == LAGUMTAY_OK, "open for steps");
    order(1);
    put(command, 8, 300, 8);
    quiet(1);
    check(at(writer, 0, 8) == 300 && at(writer, 28, 4) == 1, "command.count");
    order(3);
    quiet(2 * M);
    order(2);
    put(command, 4, 2, 2);
    quiet(1);
    check(at(writer, 8, 8) == 2 && at(writer, 28, 4) == 2, "command.index");
    order(3);
    quiet(2 * Q + N);

    /* Equal copies show their count under either choice, and do not tell it. */
    const uint64_t begins[] = {4, 0x0D}, choices[] = {LAGUMTAY_LOW, LAGUMTAY_HIGH};
    for (size_t i = 0; i < 2; i++) {
        order(begins[i]);
        put(command, 1, 2, 1);
        quiet(1);
        check(at(readers + 64, 0, 3) == 1, "command.reader of a count read");
        check(at(readers + 64, 3, 1) == choices[i], "reader.choice of a count read");
        order(6);
        put(command, 1, 2, 1);
        quiet(2 * M - 1);
        check(step() == LAGUMTAY_OK, "the last step of a count read");
        told(1, 2, 0, 0, 0, 300, 0, 0);
        check(at(readers + 64, 0, 4) == 0, "the reader of a finished count read");
    }

    order(5);
    put(command, 1, 1, 1);
    put(command, 2, 3, 1);
    quiet(1);
    check(at(readers + 32, 0, 4) == 0x0302, "command.reader and command.attempts");
    order(6);
    put(command, 1, 1, 1);
    quiet(2 * Q + N - 1);
    check(step() == LAGUMTAY_OK, "the last step of a record read");
    told(2, 1, 1, 0, 1, 0, 0, 0);
    check(memcmp(buffers + N, records + 2 * N, N) == 0, "the accepted record");

    /* v2 is read before the next record write begins, v1 after it was written: the read gives up. */
    order(5);
    put(command, 1, 0, 1);
    put(command, 2, 1, 1);
    quiet(1);
    order(6);
    put(command, 1, 0, 1);
    quiet(Q);
    order(2);
    put(command, 4, 0, 2);
    quiet(1);
    order(3);
    quiet(Q);
    order(6);
    put(command, 1, 0, 1);
    quiet(Q + N - 1);
    check(step() == LAGUMTAY_OK, "the last step of the last attempt");
    told(3, 0, 1, 0, 0, 0, 0, 0);

    /* 0D is checked as 04 is: each of them by a busy reader, and by one that is not there. */
    for (size_t i = 0; i < 2; i++) {
        order(begins[i]);
        put(command, 1, 0, 1);
        quiet(1);
        check(at(readers, 0, 3) == 1 && at(readers, 3, 1) == choices[i], "a count read to be met");
        for (size_t k = 0; k < 2; k++) {
            order(begins[k]);
            put(command, 1, 0, 1);
            check(step() == LAGUMTAY_BUSY, "a count read of a busy reader");
            told(0, 0, 0, 0, 0, 0, 0, 0);
            put(command, 1, READERS, 1);
            check(step() == LAGUMTAY_NO_SUCH, "a count read of no reader");
            told(0, 0, 0, 0, 0, 0, 0, 0);
        }
        check(at(readers, 0, 3) == 1 && at(readers, 3, 1) == choices[i], "a refused begin changes no choice");
        order(7);
        put(command, 1, 0, 1);
        quiet(1);
        check(at(readers, 0, 4) == 0, "a cancelled count read");
        check(step() == LAGUMTAY_NOTHING_PENDING, "nothing to cancel");
        told(0, 0, 0, 0, 0, 0, 0, 0);
    }
    for (uint64_t kind = 0; kind < 256; kind++)
        if (kind == 0 || (kind > 7 && kind != 0x0D)) {
            order(kind);
            put(command, 1, 0, 1);
            check(step() == LAGUMTAY_UNKNOWN_COMMAND, "an unknown kind");
            told(0, 0, 0, 0, 0, 0, 0, 0);
        }
}

/* The last step of a count read whose copies part, 1, 3, 1 and 4, 1, 3: through the run and through the step it ends
 * between 1, 7, 8 and 4, 0, 0, and leaves the same; the step tells the choice too. One byte of room short of the entry,
 * the run changes nothing. */
static void parting(uint8_t begin, uint64_t choice) {
    check(opening() == LAGUMTAY_OK, "open for copies that part");
    const char begun_by[] = {(char)begin, 1};
    check(run(begun_by, 2, 0) == LAGUMTAY_OK, "a count read of either choice");
    check(RUN("\6\1\6\1\6\1\1\0\0\0\0\0\0\1\54\3\3\3\3\3\3\6\1\6\1") == LAGUMTAY_OK, "a write meets a read");
    check(at(readers + 32, 0, 3) == 1 && at(readers + 32, 3, 1) == choice, "the choice is kept");
    uint8_t begun[sizeof readers], kept_page[sizeof page], kept_writer[sizeof writer], kept_log[sizeof log_bytes];
    memcpy(begun, readers, sizeof readers);
    memcpy(kept_page, page, sizeof page);
    memcpy(kept_writer, writer, sizeof writer);
    memset(log_bytes, 0xee, sizeof log_bytes);
    memcpy(kept_log, log_bytes, sizeof log_bytes);
    check(run("\6\1", 2, 17) == LAGUMTAY_LOG_FULL, "17 bytes of room");
    check(at(answer, 0, 8) == 0 && at(answer, 8, 8) == 0 && at(answer, 16, 8) == 0, "a refused entry is not written");
    check(memcmp(begun, readers, sizeof readers) == 0, "the read can be stepped again");
    check(memcmp(kept_log, log_bytes, sizeof log_bytes) == 0, "the log of a refused entry");

    check(run("\6\1", 2, 18) == LAGUMTAY_OK, "18 bytes of room");
    check(at(answer, 0, 8) == 1 && at(answer, 8, 8) == 18 && at(answer, 16, 8) == 2, "an entry of 18 bytes");
    check(memcmp(log_bytes, "\4\1\0\0\0\0\0\0\0\217\0\0\0\0\0\0\1\40\356\356", 20) == 0, "the log of copies that part");
    check(at(readers + 32, 0, 4) == 0 && at(readers + 32, 8, 8) == 0, "the reader is idle");

    memcpy(readers, begun, sizeof readers);
    order(6);
    put(command, 1, 1, 1);
    check(step() == LAGUMTAY_OK, "the step of copies that part");
    told(4, 1, 0, choice, 0, 0, 143, 288);
    check(at(readers + 32, 0, 4) == 0 && at(readers + 32, 8, 8) == 0, "the stepped reader is idle");
    check(memcmp(kept_page, page, sizeof page) == 0, "a reader changes no page");
    check(memcmp(kept_writer, writer, sizeof writer) == 0, "a reader changes no writer");
}

/* Each byte of a state's fields goes to a place of its own, and comes back from there. */
static void packing(void) {
    uint8_t packed[READERS * 28 + 1], kept[sizeof readers];
    for (size_t i = 0; i < sizeof readers; i++)
        readers[i] = (uint8_t)(i + 1);
    memcpy(kept, readers, sizeof readers);
    memset(packed, 0xee, sizeof packed);
    const lagumtay_reader *from = (const lagumtay_reader *)readers;
    check(lagumtay_pack(from, READERS, packed, READERS * 28 + 1) == LAGUMTAY_WRONG_LENGTH, "a byte too many");
    check(lagumtay_pack(from, READERS, packed, READERS * 28 - 1) == LAGUMTAY_WRONG_LENGTH, "a byte too few");
    for (size_t i = 0; i < sizeof packed; i++)
        check(packed[i] == 0xee, "a refused packing writes nothing");
    check(lagumtay_pack(from, READERS, packed, READERS * 28) == LAGUMTAY_OK, "pack");
    check(packed[READERS * 28] == 0xee, "the byte after the last state");
    for (size_t r = 0; r < READERS; r++) {
        const uint8_t *state = readers + 32 * r, *bytes = packed + 28 * r;
        check(memcmp(bytes, state, 4) == 0, "packed kind, allowed, finished, choice");
        for (size_t i = 0; i < 8; i++)
            check(bytes[4 + i] == state[15 - i], "packed steps, high byte first");
        check(memcmp(bytes + 12, state + 16, 16) == 0, "packed digits");
    }

    lagumtay_reader *to = (lagumtay_reader *)readers;
    memset(readers, 0xaa, sizeof readers);
    check(lagumtay_unpack(to, READERS, packed, READERS * 28 - 1) == LAGUMTAY_WRONG_LENGTH, "unpack a byte too few");
    for (size_t i = 0; i < sizeof readers; i++)
        check(readers[i] == 0xaa, "a refused unpacking writes nothing");
    check(lagumtay_unpack(to, READERS, packed, READERS * 28) == LAGUMTAY_OK, "unpack");
    for (size_t r = 0; r < READERS; r++) {
        check(memcmp(readers + 32 * r, kept + 32 * r, 4) == 0, "unpacked kind, allowed, finished, choice");
        check(memcmp(readers + 32 * r + 8, kept + 32 * r + 8, 24) == 0, "unpacked steps and digits");
    }
    check(RUN("") == LAGUMTAY_INVALID_STATE, "such states are judged by the next call");
}

/* The format is good; with one more in the field at this offset, it is not the one that the lengths are for. */
static void format_field(size_t offset, size_t size, uint64_t value, const char *what) {
    check(at(format, offset, size) == value, what);
    put(format, offset, value + 1, size);
    check(opening() == LAGUMTAY_WRONG_LENGTH, what);
    put(format, offset, 0, size);
    check(opening() == LAGUMTAY_BAD_FORMAT, what);
    put(format, offset, value, size);
}

/* A value that no steps could leave in a state's field is refused; the field's own value is then put back. */
static void state_field(uint8_t *state, size_t offset, size_t size, uint64_t wrong, const char *what) {
    uint64_t value = at(state, offset, size);
    put(state, offset, wrong, size);
    check(RUN("") == LAGUMTAY_INVALID_STATE, what);
    check(at(answer, 0, 8) == 0 && at(answer, 8, 8) == 0 && at(answer, 16, 8) == 0,
          "a run refused by 3 answers zeros");
    put(state, offset, value, size);
    check(RUN("") == LAGUMTAY_OK, what);
}

int main(void) {
    put(format, 0, Q, 8);
    put(format, 8, 11, 2);
    put(format, 10, LAGUMTAY_PLAIN, 2);
    put(format, 16, N, 8);
    put(format, 24, READERS, 8);
    format_field(0, 8, Q, "format.q");
    format_field(16, 8, N, "format.n");
    format_field(24, 8, READERS, "format.readers");
    put(format, 8, 257, 2);
    check(opening() == LAGUMTAY_BAD_FORMAT, "format.base");
    put(format, 8, 11, 2);
    /* The layout has both its bytes, and a good one asks another length of the page. */
    const uint64_t no_layouts[] = {2, 256, 257, 65535};
    for (size_t i = 0; i < sizeof no_layouts / sizeof *no_layouts; i++) {
        put(format, 10, no_layouts[i], 2);
        check(opening() == LAGUMTAY_BAD_FORMAT, "format.layout");
    }
    put(format, 10, LAGUMTAY_FOLDED, 2);
    check(opening() == LAGUMTAY_WRONG_LENGTH, "format.layout");
    put(format, 10, LAGUMTAY_PLAIN, 2);

    /* An opening writes all fields of all states. */
    memset(writer, 0xaa, sizeof writer);
    memset(readers, 0xaa, sizeof readers);
    check(opening() == LAGUMTAY_OK, "open");
    for (size_t i = 0; i < sizeof writer; i++)
        check(writer[i] == 0, "the opened writer");
    for (size_t r = 0; r < READERS; r++) {
        check(at(readers, 32 * r, 4) == 0, "an opened reader's kind, allowed, finished, choice");
        for (size_t i = 8; i < 32; i++)
            check(readers[32 * r + i] == 0, "an opened reader's steps and digits");
    }
    /* 100 is 1, 3, 1 in bases 7, 8, 9 */
    check(memcmp(page, "\1\3\1\1\3\1\0\0abcde\0\0", sizeof page) == 0, "the opened page");

    /* A count write after two steps: 300 is 4, 1, 3. */
    check(RUN("\1\0\0\0\0\0\0\1\54\3\3") == LAGUMTAY_OK, "write a count");
    check(at(answer, 0, 8) == 3 && at(answer, 8, 8) == 0, "answer.done and answer.written");
    check(at(answer, 16, 8) == 11, "answer.taken");
    check(at(writer, 0, 8) == 300, "writer.count");
    check(at(writer, 8, 8) == 0, "writer.index of a count");
    check(at(writer, 16, 8) == 2, "writer.steps");
    check(at(writer, 24, 4) == 0, "writer.version of a count");
    check(at(writer, 28, 4) == 1, "writer.kind of a count");
    check(memcmp(page + M, "\4\1\1", M) == 0, "c2 after two steps");
    state_field(writer, 0, 8, 504, "writer.count");
    state_field(writer, 8, 8, 1, "writer.index");
    state_field(writer, 16, 8, 2 * M, "writer.steps");
    state_field(writer, 24, 4, 1, "writer.version");
    state_field(writer, 28, 4, 3, "writer.kind");
    check(RUN("\3\3\3\3") == LAGUMTAY_OK, "the rest of the count");

    /* Record 2 after three steps. */
    check(RUN("\2\0\2\3\3\3") == LAGUMTAY_OK, "write a record");
    check(at(writer, 0, 8) == 0, "writer.count of a record");
    check(at(writer, 8, 8) == 2, "writer.index");
    check(at(writer, 16, 8) == 3, "writer.steps of a record");
    check(at(writer, 24, 4) == 1, "writer.version");
    check(at(writer, 28, 4) == 2, "writer.kind of a record");
    state_field(writer, 8, 8, 3, "writer.index of a record");
    state_field(writer, 24, 4, 121, "writer.version of a record");

    /* Reader 1 has c1 and the last digit of c2; reader 2 is in its second attempt, with both digits of v2. */
    check(RUN("\4\1\6\1\6\1\6\1\6\1") == LAGUMTAY_OK, "a count read");
    check(RUN("\5\2\3\6\2\6\2\6\2\6\2\6\2\6\2\6\2\6\2\6\2\6\2\6\2") == LAGUMTAY_OK, "a record read");
    const uint8_t *reader = readers + 32;
    check(at(reader, 0, 4) == 1, "reader.kind and reader.choice of a count read");
    check(at(reader, 8, 8) == 4, "reader.steps");
    check(memcmp(reader + 16, "\4\1\3\0\0\0\0\0\0\0\3\0\0\0\0\0", 16) == 0, "reader.digits");
    reader = readers + 64;
    check(at(reader, 0, 1) == 2, "reader.kind of a record read");
    check(at(reader, 1, 1) == 3, "reader.allowed");
    check(at(reader, 2, 1) == 1, "reader.finished");
    check(at(reader, 3, 1) == 0, "reader.choice of a record read");
    check(at(reader, 8, 8) == 2, "reader.steps of a record read");
    state_field(readers + 32, 0, 1, 3, "reader.kind");
    state_field(readers + 32, 8, 8, 2 * M, "reader.steps");
    state_field(readers + 32, 16, 1, 7, "the first digit");
    state_field(readers + 32, 31, 1, 1, "the last digit");
    state_field(readers + 64, 1, 1, 1, "reader.allowed");
    state_field(readers + 64, 2, 1, 3, "reader.finished");
    /* A count read has one of two choices, a record read and an idle reader have none. */
    for (uint64_t choice = 1; choice < 256; choice++) {
        state_field(readers, 3, 1, choice, "reader.choice of an idle reader");
        state_field(readers + 64, 3, 1, choice, "reader.choice of a record read");
        if (choice > LAGUMTAY_HIGH)
            state_field(readers + 32, 3, 1, choice, "reader.choice of a count read");
    }
    put(readers + 32, 3, LAGUMTAY_HIGH, 1);
    check(RUN("") == LAGUMTAY_OK, "the other choice of a count read");
    put(readers + 32, 3, LAGUMTAY_LOW, 1);
    check(at(readers, 0, 4) == 0, "reader 0 is idle");

    /* The log and the answer's second number. */
    check(RUN("\6\1\6\1") == LAGUMTAY_OK, "the end of the count read");
    check(at(answer, 0, 8) == 2 && at(answer, 8, 8) == 10, "answer.written");
    check(at(answer, 16, 8) == 4, "answer.taken of reader steps");
    check(memcmp(log_bytes, "\1\1\0\0\0\0\0\0\1\54", 10) == 0, "the log");

    /* The commands before a refused one are taken, and no byte of its own. */
    check(RUN("\4\1\7\1\6\1\3") == LAGUMTAY_NOTHING_PENDING, "a refused command");
    check(at(answer, 0, 8) == 2 && at(answer, 8, 8) == 0 && at(answer, 16, 8) == 4, "what a refused run answers");

    /* 0D is checked as 04 is, and the kinds around it are unknown. */
    check(RUN("\15\1\15\1") == LAGUMTAY_BUSY && at(answer, 16, 8) == 2, "0D of a busy reader");
    check(at(readers + 32, 0, 3) == 1 && at(readers + 32, 3, 1) == LAGUMTAY_HIGH, "0D names the high end");
    check(RUN("\4\1") == LAGUMTAY_BUSY && at(answer, 16, 8) == 0, "04 of a busy reader");
    check(RUN("\7\1\4\1") == LAGUMTAY_OK && at(readers + 32, 0, 4) == 1, "04 names none");
    check(RUN("\7\1\15\3") == LAGUMTAY_NO_SUCH && at(answer, 16, 8) == 2, "0D of no reader");
    check(RUN("\15") == LAGUMTAY_UNKNOWN_COMMAND && at(answer, 16, 8) == 0, "0D cut short");
    const char unknown[][2] = {{0, 0}, {8, 0}, {9, 0}, {10, 0}, {11, 0}, {12, 0}, {14, 0}, {15, 0}};
    for (size_t i = 0; i < sizeof unknown / sizeof *unknown; i++)
        check(run(unknown[i], 2, 0) == LAGUMTAY_UNKNOWN_COMMAND && at(answer, 0, 8) == 0, "an unknown command");

    /* Lists that are empty need no memory. */
    memset(answer, 0xee, sizeof answer);
    check(opening() == LAGUMTAY_OK, "open once more");
    check(lagumtay_run((const lagumtay_format *)format, bases, M, page, sizeof page, (lagumtay_writer *)writer,
                       (lagumtay_reader *)readers, READERS, buffers, sizeof buffers, NULL, 0, NULL, 0, NULL, 0,
                       (lagumtay_answer *)answer) == LAGUMTAY_OK, "empty lists");
    check(at(answer, 0, 8) == 0 && at(answer, 8, 8) == 0 && at(answer, 16, 8) == 0, "an empty run");

    /* Cancel. */
    check(RUN("\5\0\1\6\0\6\0\6\0") == LAGUMTAY_OK, "a record read to cancel");
    const uint8_t who[] = {READERS, 1, 0, 0};
    const uint8_t answers[] = {LAGUMTAY_NO_SUCH, LAGUMTAY_NOTHING_PENDING, LAGUMTAY_OK, LAGUMTAY_NOTHING_PENDING};
    for (size_t i = 0; i < sizeof who; i++)
        check(lagumtay_cancel((const lagumtay_format *)format, bases, M, page, sizeof page, (lagumtay_writer *)writer,
                              (lagumtay_reader *)readers, READERS, buffers, sizeof buffers, records, sizeof records,
                              who[i]) == answers[i], "cancel");
    check(at(readers, 0, 4) == 0 && at(readers, 8, 8) == 0, "the cancelled reader is idle");
    check(buffers[0] == 'a' && buffers[1] == 0, "its buffer keeps its bytes");
    check(RUN("\15\0\6\0") == LAGUMTAY_OK && at(readers, 3, 1) == LAGUMTAY_HIGH, "a count read to cancel");
    check(lagumtay_cancel((const lagumtay_format *)format, bases, M, page, sizeof page, (lagumtay_writer *)writer,
                          (lagumtay_reader *)readers, READERS, buffers, sizeof buffers, records, sizeof records,
                          0) == LAGUMTAY_OK, "cancel a count read");
    check(at(readers, 0, 4) == 0 && at(readers, 8, 8) == 0, "the cancelled choice");

    stepping();
    parting(4, LAGUMTAY_LOW);
    parting(0x0D, LAGUMTAY_HIGH);
    packing();
    return all_passed();
}
