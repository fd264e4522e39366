/* Folded pages: their length, the digit that each step moves, what a reader's state holds then, with its choice, and the
 * refusals in which they differ from plain ones.
 *
 *     cc -std=c11 -Iinclude tests/folded.c target/staticlib/liblagumtay.a -o target/folded && target/folded
 */
#include "check.h"
#include "lagumtay.h"

enum { Q = 1, N = 2, READERS = 2, MOST_M = 8, MOST_PAGE = 2 * MOST_M + 2 * Q + N };

static const uint8_t records[N] = "xy";
static lagumtay_format format = {.q = Q, .base = 200, .layout = LAGUMTAY_FOLDED, .n = N, .readers = READERS};
static uint16_t bases[MOST_M];
static size_t m;

/* What the calls change. The page has a byte more than the longest, which none may touch. */
static struct memory {
    uint8_t page[MOST_PAGE + 1];
    lagumtay_writer writer;
    lagumtay_reader readers[READERS];
    uint8_t buffers[READERS * N];
} lent;

static size_t folded_length(void) {
    return 2 * m - 1 + 2 * Q + N;
}

static uint8_t opening(size_t page_len, uint64_t count) {
    return lagumtay_open(&format, bases, m, lent.page, page_len, &lent.writer, lent.readers, READERS, lent.buffers,
                         sizeof lent.buffers, count, (const uint8_t *)"ab", N);
}

static uint8_t step_on(size_t page_len, lagumtay_command command, lagumtay_outcome *outcome) {
    return lagumtay_step(&format, bases, m, lent.page, page_len, &lent.writer, lent.readers, READERS, lent.buffers,
                         sizeof lent.buffers, records, sizeof records, &command, outcome);
}

static uint8_t step(lagumtay_command command, lagumtay_outcome *outcome) {
    return step_on(folded_length(), command, outcome);
}

/* An empty run answers what the checks at the start of a run find. */
static uint8_t looked_at(size_t page_len) {
    lagumtay_answer answer;
    return lagumtay_run(&format, bases, m, lent.page, page_len, &lent.writer, lent.readers, READERS, lent.buffers,
                        sizeof lent.buffers, records, sizeof records, NULL, 0, NULL, 0, &answer);
}

/* Commands that tell nothing. */
static void quiet(uint8_t kind, uint64_t count, int times, const char *what) {
    while (times-- > 0) {
        lagumtay_outcome outcome;
        check(step((lagumtay_command){.kind = kind, .reader = 0, .count = count}, &outcome) == LAGUMTAY_OK, what);
        check(outcome.kind == 0, what);
    }
}

/* A fresh folded page with so many places of one base. */
static void open_with(size_t places, uint16_t base, uint64_t count) {
    m = places;
    snprintf(place, sizeof place, "m = %zu", m);
    for (size_t i = 0; i < m; i++)
        bases[i] = base;
    memset(lent.page, 0xee, sizeof lent.page);
    check(opening(folded_length(), count) == LAGUMTAY_OK, "open");
    check(lent.page[folded_length()] == 0xee, "the byte after the page");
}

/* Each layout asks its own length, of every call; no third layout is one. */
static void lengths(size_t places) {
    open_with(places, 10, 5);
    const struct memory opened = lent;
    lagumtay_outcome outcome;
    for (uint16_t layout = LAGUMTAY_PLAIN; layout <= LAGUMTAY_FOLDED; layout++)
        for (size_t digits = 2 * m - 2; digits <= 2 * m + 1; digits++) {
            size_t length = digits + 2 * Q + N;
            format.layout = layout;
            int right = digits == 2 * m - layout;
            lent = opened;
            if (!right) {
                check(opening(length, 5) == LAGUMTAY_WRONG_LENGTH, "open with a wrong length");
                check(looked_at(length) == LAGUMTAY_WRONG_LENGTH, "run with a wrong length");
                check(step_on(length, (lagumtay_command){.kind = 4}, &outcome) == LAGUMTAY_WRONG_LENGTH,
                      "step with a wrong length");
                check(lagumtay_cancel(&format, bases, m, lent.page, length, &lent.writer, lent.readers, READERS,
                                      lent.buffers, sizeof lent.buffers, records, sizeof records,
                                      0) == LAGUMTAY_WRONG_LENGTH, "cancel with a wrong length");
                check(memcmp(&lent, &opened, sizeof lent) == 0, "a refused call changes nothing");
            } else {
                check(opening(length, 5) == LAGUMTAY_OK, "open with the right length");
                check(looked_at(length) == LAGUMTAY_OK, "run with the right length");
            }
        }
    static const uint16_t none[] = {2, 3, 256, 257, 65535};
    lent = opened;
    for (size_t i = 0; i < sizeof none / sizeof *none; i++) {
        format.layout = none[i];
        check(opening(folded_length(), 5) == LAGUMTAY_BAD_FORMAT, "open with no layout");
        check(looked_at(folded_length()) == LAGUMTAY_BAD_FORMAT, "run with no layout");
        check(looked_at(0) == LAGUMTAY_BAD_FORMAT, "1 before 2");
        check(step((lagumtay_command){.kind = 4}, &outcome) == LAGUMTAY_BAD_FORMAT, "step with no layout");
        check(memcmp(&lent, &opened, sizeof lent) == 0, "a refused call changes nothing");
    }
    format.layout = LAGUMTAY_FOLDED;
}

/* 123 becomes 456: c2's own digits, the shared one, c1's own from the right. Then a read takes them in reverse. */
static void one_write_one_read(void) {
    open_with(3, 10, 123);
    check(memcmp(lent.page, "\1\2\3\1\2\0ab\0", 9) == 0, "the opened page");
    static const uint8_t pages[][6] = {"\1\2\3\4\2", "\1\2\3\4\5", "\1\2\6\4\5", "\1\5\6\4\5", "\4\5\6\4\5"};
    quiet(1, 456, 1, "announce a count");
    for (size_t k = 0; k < 5; k++) {
        check(lent.writer.kind == 1 && lent.writer.steps == k, "the steps of a write");
        quiet(3, 0, 1, "a writer step");
        check(memcmp(lent.page, pages[k], 5) == 0, "the digit that a step writes");
        check(memcmp(lent.page + 5, "\0ab\0\xee", 5) == 0, "what stands behind the count");
    }
    check(lent.writer.kind == 0 && lent.writer.steps == 0, "the write is over");
    lagumtay_outcome outcome;
    check(step((lagumtay_command){.kind = 3}, &outcome) == LAGUMTAY_NOTHING_PENDING, "no sixth step of a write");

    static const uint8_t digits[][17] = {"\0\0\0\0\0\0\0\0\0\0\0\0\0\0\0\0", "\4\0\0\0\0\0\0\0\0\0\0\0\0\0\0\0",
                                         "\4\5\0\0\0\0\0\0\0\0\0\0\0\0\0\0", "\4\5\6\0\0\0\0\0\0\0\0\0\0\0\0\0",
                                         "\4\5\6\0\0\0\0\0\0\5\0\0\0\0\0\0"};
    quiet(4, 0, 1, "begin a count read");
    for (size_t k = 0; k < 5; k++) {
        check(lent.readers[0].kind == 1 && lent.readers[0].steps == k, "the steps of a read");
        check(memcmp(lent.readers[0].digits, digits[k], 16) == 0, "the digits gathered");
        if (k < 4)
            quiet(6, 0, 1, "a reader step");
    }
    check(step((lagumtay_command){.kind = 6}, &outcome) == LAGUMTAY_OK, "the last step of a read");
    check(outcome.kind == 1 && outcome.reader == 0 && outcome.choice == 0 && outcome.count == 456, "the count shown");
    check(lent.readers[0].kind == 0 && memcmp(lent.readers[0].digits, digits[0], 16) == 0, "the read is over");
    check(step((lagumtay_command){.kind = 6}, &outcome) == LAGUMTAY_NOTHING_PENDING, "no sixth step of a read");
}

/* After a read took 0, 9 and the shared 9, so many steps are taken of the write by which 099 becomes 100. The read goes
 * on with 0 and 1 of c2: b is 1, 0 and the same 9. Both ends are told under either choice. */
static void parting(int written, uint8_t begin, uint8_t choice) {
    open_with(3, 10, 99);
    quiet(begin, 0, 1, "begin a count read");
    check(lent.readers[0].kind == 1 && lent.readers[0].choice == choice, "the choice of a read");
    quiet(6, 0, 3, "the digits of a");
    quiet(1, 100, 1, "announce a count");
    quiet(3, 0, written, "steps of the write");
    quiet(6, 0, 1, "a digit of b");
    check(lent.readers[0].digits[9] == 0 && lent.readers[0].digits[10] == 0, "the digits of b so far");
    lagumtay_outcome outcome;
    check(step((lagumtay_command){.kind = 6}, &outcome) == LAGUMTAY_OK, "the last step of a read");
    check(outcome.kind == 4 && outcome.low == 99 && outcome.high == 100, "both ends");
    check(outcome.choice == choice, "the choice that is told");
    check((outcome.choice == LAGUMTAY_HIGH ? outcome.high : outcome.low) == 99 + (uint64_t)choice, "the count shown");
    check(lent.readers[0].kind == 0 && lent.readers[0].choice == 0, "the read is over");
}

/* One place: one step writes it, one reads it, and no read is between two counts. */
static void one_place(void) {
    open_with(1, 10, 4);
    check(memcmp(lent.page, "\4\0ab\0", 5) == 0, "the opened page");
    lagumtay_outcome outcome;
    for (uint64_t written = 4; written <= 7; written += 3) {
        quiet(4, 0, 1, "begin a count read");
        quiet(1, 7, 1, "announce a count");
        if (written == 7)
            quiet(3, 0, 1, "the only step of a write");
        check(step((lagumtay_command){.kind = 6}, &outcome) == LAGUMTAY_OK, "the only step of a read");
        check(outcome.kind == 1 && outcome.count == written, "the count shown");
        if (written == 4)
            quiet(3, 0, 1, "the only step of a write");
        check(lent.page[0] == 7 && lent.writer.kind == 0, "the write is over");
        lent.page[0] = 4;
    }
    lent.page[0] = 7;
    check(step((lagumtay_command){.kind = 1, .count = 6}, &outcome) == LAGUMTAY_COUNT_DECREASES, "6 after 7");
    check(step((lagumtay_command){.kind = 1, .count = 10}, &outcome) == LAGUMTAY_COUNT_TOO_LARGE, "10 in one place");
    quiet(1, 7, 1, "7 after 7");
}

/* What no steps could hold, in a state that is good otherwise. */
static void damaged(const struct memory *good, const char *what) {
    check(looked_at(folded_length()) == LAGUMTAY_INVALID_STATE, what);
    lent = *good;
    check(looked_at(folded_length()) == LAGUMTAY_OK, "the state without the damage");
}

/* A count write and a count read, each with one step to come. */
static void states(size_t places) {
    open_with(places, 10, 5);
    quiet(1, 5, 1, "announce a count");
    quiet(3, 0, 2 * (int)m - 2, "all steps of a write but one");
    quiet(4, 0, 1, "begin a count read");
    quiet(6, 0, 2 * (int)m - 2, "all steps of a read but one");
    struct memory good = lent;
    lagumtay_reader *reader = &lent.readers[0];

    for (int choice = 1; choice < 256; choice++) {
        lent.readers[1].choice = (uint8_t)choice;
        damaged(&good, "a choice of an idle reader");
        lent.readers[1] = (lagumtay_reader){.kind = 2, .allowed = 1, .choice = (uint8_t)choice};
        damaged(&good, "a choice of a record read");
        reader->choice = (uint8_t)choice;
        if (choice > LAGUMTAY_HIGH)
            damaged(&good, "a third choice of a count read");
        else
            check(looked_at(folded_length()) == LAGUMTAY_OK, "the other choice of a count read");
        lent = good;
    }
    lent.readers[1] = (lagumtay_reader){.kind = 2, .allowed = 1};
    check(looked_at(folded_length()) == LAGUMTAY_OK, "a record read without a choice");
    lent = good;
    reader->steps = 2 * m - 1;
    damaged(&good, "a reader with all steps taken");
    lent.writer.steps = 2 * m - 1;
    damaged(&good, "a writer with all steps taken");
    for (size_t place = m - 1; place < 8; place++) {
        reader->digits[8 + place] = 1;
        damaged(&good, "a digit from the last place of b on");
    }
    for (size_t i = 0; i < 2 * m - 1; i++) {
        lent.page[i] = 10;
        damaged(&good, "a count digit at its base");
    }
    lent.page[2 * m - 1] = 200;
    damaged(&good, "the digit of v1 at its base");
    lent.page[2 * m - 1 + Q + N] = 200;
    damaged(&good, "the digit of v2 at its base");
    /* What stands behind c2's own digits is no digit of it. */
    lent.page[2 * m - 1] = lent.page[2 * m - 1 + Q + N] = 199;
    for (size_t i = 2 * m; i < 2 * m + N; i++)
        lent.page[i] = 255;
    check(looked_at(folded_length()) == LAGUMTAY_OK, "versions below their base, and any bytes in the record");
    lent = good;
    if (m > 1) {
        reader->digits[m - 1] = 10;
        damaged(&good, "the shared digit at its base");
        reader->digits[8 + m - 2] = m > 2 ? 10 : 1;
        damaged(&good, m > 2 ? "c2's last own digit at its base" : "a digit of c2 that is not gathered");
    }
    reader->steps = 0;
    memset(reader->digits, 0, 16);
    check(looked_at(folded_length()) == LAGUMTAY_OK, "a read with no step taken");
}

/* Whether a count goes back is told by c2's own digits and the shared one. */
static void going_back(size_t places, uint16_t base, uint64_t count) {
    open_with(places, base, count);
    const struct memory opened = lent;
    lagumtay_outcome outcome;
    check(step((lagumtay_command){.kind = 1, .count = count - 1}, &outcome) == LAGUMTAY_COUNT_DECREASES, "one less");
    check(memcmp(&lent, &opened, sizeof lent) == 0, "a refused write changes nothing");
    check(step((lagumtay_command){.kind = 1, .count = count}, &outcome) == LAGUMTAY_OK, "the same count");
    lent = opened;
    lent.page[m - 1]--;
    check(step((lagumtay_command){.kind = 1, .count = count - 1}, &outcome) == LAGUMTAY_OK, "a lower shared digit");
}

/* 0D is checked as 04 is, whichever of them began the read that is met. */
static void beginning(uint8_t begin, uint8_t choice) {
    open_with(2, 10, 57);
    quiet(begin, 0, 1, "begin a count read");
    quiet(6, 0, 2, "the digits of a");
    const struct memory begun = lent;
    static const uint8_t kinds[] = {4, 0x0D};
    for (size_t i = 0; i < sizeof kinds; i++) {
        lagumtay_outcome outcome = {9, 9, 9, 9, 9, 9, 9, 9};
        check(step((lagumtay_command){.kind = kinds[i], .reader = 0}, &outcome) == LAGUMTAY_BUSY, "a busy reader");
        check(outcome.kind == 0 && outcome.choice == 0, "a refused begin tells nothing");
        check(step((lagumtay_command){.kind = kinds[i], .reader = READERS}, &outcome) == LAGUMTAY_NO_SUCH, "no reader");
    }
    check(memcmp(&lent, &begun, sizeof lent) == 0, "a refused begin changes nothing");
    lagumtay_outcome outcome;
    check(step((lagumtay_command){.kind = 6}, &outcome) == LAGUMTAY_OK, "the last step of a read");
    check(outcome.kind == 1 && outcome.choice == 0 && outcome.count == 57, "equal copies under either choice");
    quiet(begin, 0, 1, "begin again");
    check(lent.readers[0].choice == choice, "the choice of a read");
    quiet(7, 0, 1, "cancel");
    check(lent.readers[0].kind == 0 && lent.readers[0].choice == 0, "a cancelled read");
    for (uint8_t kind = 8; kind <= 14; kind++)
        if (kind != 0x0D)
            check(step((lagumtay_command){.kind = kind}, &outcome) == LAGUMTAY_UNKNOWN_COMMAND, "an unknown kind");
}

int main(void) {
    for (size_t places = 1; places <= MOST_M; places++) {
        lengths(places);
        states(places);
    }
    one_write_one_read();
    for (int written = 2; written <= 5; written++) {
        parting(written, 4, LAGUMTAY_LOW);
        parting(written, 0x0D, LAGUMTAY_HIGH);
    }
    beginning(4, LAGUMTAY_LOW);
    beginning(0x0D, LAGUMTAY_HIGH);
    one_place();
    going_back(1, 10, 5);
    going_back(2, 60, 717);
    going_back(8, 256, UINT64_MAX);
    return all_passed();
}
