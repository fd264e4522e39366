/* The helpers of lagumtay_helpers.h: commands as bytes and as structs, held to the documented bytes and to what the
 * archive does with them; the entries of logs that runs wrote, of every cut of one, and of random bytes; texts.
 *
 *     cc -std=c11 -Iinclude tests/helpers.c target/staticlib/liblagumtay.a -o target/helpers && target/helpers
 *
 * It is C++ too: c++ -std=c++11 -x c++ tests/helpers.c -x none ... With -fsanitize=address it notices a byte too far.
 */
#include "page.h"

enum { M = 8, Q = 2, N = 2, READERS = 3 };

/* COMMANDS */

static uint8_t *room; /* exactly the bytes that a command may have */

static uint8_t *room_of(size_t len) {
    free(room);
    room = (uint8_t *)malloc(len);
    memset(room, 0xee, len);
    return room;
}

/* A command that was put into the room, and the same one as a struct, have these bytes. */
static void has_bytes(size_t put_there, lagumtay_command made, const char *bytes, size_t len, const char *what) {
    uint8_t wide[LAGUMTAY_LONGEST_COMMAND + 1];
    check(put_there == len, what);
    check(memcmp(room, bytes, len) == 0, what);
    memset(wide, 0xee, sizeof wide);
    check(lagumtay_put_command(wide, made) == len, what);
    check(memcmp(wide, bytes, len) == 0, what);
    for (size_t i = len; i < sizeof wide; i++)
        check(wide[i] == 0xee, "a byte behind a command");
    check(lagumtay_command_len(made.kind) == len, what);
}
#define HAS_BYTES(put_there, made, bytes, what) has_bytes(put_there, made, bytes, sizeof(bytes) - 1, what)

static void unknown_kind(uint8_t kind) {
    uint8_t bytes[LAGUMTAY_LONGEST_COMMAND];
    memset(bytes, 0xee, sizeof bytes);
    check(lagumtay_command_len(kind) == 0, "the bytes of an unknown kind");
    check(lagumtay_put_command(bytes, lagumtay_make(kind, 1, 1, 1, 1)) == 0, "an unknown kind");
    for (size_t i = 0; i < sizeof bytes; i++)
        check(bytes[i] == 0xee, "an unknown kind is put");
}

static void bytes_of_commands(void) {
    const uint64_t count = 0x0102030405060708;
    HAS_BYTES(lagumtay_put_write_count(room_of(9), count), lagumtay_make_write_count(count),
              "\x01\x01\x02\x03\x04\x05\x06\x07\x08", "write a count");
    HAS_BYTES(lagumtay_put_write_record(room_of(3), 0x0908), lagumtay_make_write_record(0x0908), "\x02\x09\x08",
              "write a record");
    HAS_BYTES(lagumtay_put_writer_step(room_of(1)), lagumtay_make_writer_step(), "\x03", "a writer step");
    HAS_BYTES(lagumtay_put_begin_count_read(room_of(2), 9), lagumtay_make_begin_count_read(9), "\x04\x09",
              "begin a count read");
    HAS_BYTES(lagumtay_put_begin_record_read(room_of(3), 9, 200), lagumtay_make_begin_record_read(9, 200),
              "\x05\x09\xc8", "begin a record read");
    HAS_BYTES(lagumtay_put_reader_step(room_of(2), 15), lagumtay_make_reader_step(15), "\x06\x0f", "a reader step");
    HAS_BYTES(lagumtay_put_cancel_read(room_of(2), 255), lagumtay_make_cancel_read(255), "\x07\xff", "cancel a read");
    HAS_BYTES(lagumtay_put_begin_high_count_read(room_of(2), 9), lagumtay_make_begin_high_count_read(9), "\x0d\x09",
              "begin a count read that names the high end");
    for (unsigned kind = 0; kind < 256; kind++)
        if (kind == 0 || (kind > 7 && kind != 0x0D))
            unknown_kind((uint8_t)kind);
    free(room);
}

static struct page by_run, by_step;

/* The command's bytes through a run, and the command through a step: both do the same. */
static void both_ways(lagumtay_command command) {
    uint8_t bytes[LAGUMTAY_LONGEST_COMMAND], log[LAGUMTAY_LONGEST_ENTRY];
    lagumtay_answer answer;
    lagumtay_outcome outcome;
    size_t len = lagumtay_put_command(bytes, command);
    check(run_page(&by_run, bytes, len, log, sizeof log, &answer) == LAGUMTAY_OK, "a command is refused by a run");
    check(answer.done == 1 && answer.taken == len, "one command was run");
    check(step_page(&by_step, command, &outcome) == LAGUMTAY_OK, "a command is refused by a step");
    check(memcmp(&by_run, &by_step, sizeof by_run) == 0, "a run and a step differ");
}

static void commands_at_work(void) {
    by_step = page_of(LAGUMTAY_PLAIN, M, Q, N, READERS, 256);
    check(open_page(&by_step) == LAGUMTAY_OK, "open");
    memcpy(&by_run, &by_step, sizeof by_run);
    const lagumtay_writer *writer = &by_run.writer;
    const lagumtay_reader *readers = by_run.readers;

    both_ways(lagumtay_make_write_count(0x0102030405060708));
    check(writer->kind == LAGUMTAY_WRITES_COUNT && writer->count == 0x0102030405060708, "the count announced");
    for (size_t k = 0; k < 2 * M; k++) {
        check(writer->kind == LAGUMTAY_WRITES_COUNT && writer->steps == k, "the writer's steps");
        both_ways(lagumtay_make_writer_step());
    }
    check(writer->kind == LAGUMTAY_WRITER_IDLE, "the count is written");
    both_ways(lagumtay_make_write_record(1));
    check(writer->kind == LAGUMTAY_WRITES_RECORD && writer->index == 1, "the record announced");
    both_ways(lagumtay_make_begin_count_read(2));
    check(readers[2].kind == LAGUMTAY_READS_COUNT && readers[2].choice == LAGUMTAY_LOW, "a count read");
    both_ways(lagumtay_make_begin_high_count_read(1));
    check(readers[1].kind == LAGUMTAY_READS_COUNT && readers[1].choice == LAGUMTAY_HIGH, "a high count read");
    both_ways(lagumtay_make_begin_record_read(0, 3));
    check(readers[0].kind == LAGUMTAY_READS_RECORD && readers[0].allowed == 3, "a record read");
    both_ways(lagumtay_make_reader_step(2));
    check(readers[2].steps == 1 && readers[1].steps == 0 && readers[0].steps == 0, "one reader's step");
    both_ways(lagumtay_make_cancel_read(1));
    check(readers[1].kind == LAGUMTAY_READER_IDLE && readers[2].kind == LAGUMTAY_READS_COUNT, "one read is cancelled");
}

/* LOGS */

static const uint64_t FIRST = 0x0102030405060708, SECOND = 0x1112131415161718;
enum { WRITES = 258, ENTRIES = 4 };

/* A schedule whose reads end in all four ways, and what its steps tell. */
static uint8_t commands[4096];
static size_t commands_len;
static lagumtay_outcome told[ENTRIES + 1];
static size_t told_len;

static void then(lagumtay_command command, size_t times) {
    while (times-- > 0) {
        lagumtay_outcome outcome;
        check(commands_len + LAGUMTAY_LONGEST_COMMAND <= sizeof commands, "room for the schedule");
        commands_len += lagumtay_put_command(commands + commands_len, command);
        check(step_page(&by_step, command, &outcome) == LAGUMTAY_OK, "a step of the schedule");
        if (outcome.kind != LAGUMTAY_NOTHING && told_len < ENTRIES + 1)
            told[told_len++] = outcome;
    }
}

static void write_record_then(void) {
    then(lagumtay_make_write_record(1), 1);
    then(lagumtay_make_writer_step(), LAGUMTAY_RECORD_STEPS(Q, N));
}

static void schedule(void) {
    then(lagumtay_make_write_count(FIRST), 1);
    then(lagumtay_make_writer_step(), 2 * M);
    then(lagumtay_make_begin_count_read(2), 1);
    then(lagumtay_make_reader_step(2), 2 * M);

    then(lagumtay_make_begin_high_count_read(1), 1);
    then(lagumtay_make_reader_step(1), M);
    then(lagumtay_make_write_count(SECOND), 1);
    then(lagumtay_make_writer_step(), 2 * M);
    then(lagumtay_make_reader_step(1), M);

    for (int i = 1; i < WRITES; i++)
        write_record_then();
    then(lagumtay_make_begin_record_read(2, 2), 1);
    then(lagumtay_make_reader_step(2), Q);
    write_record_then(); /* it meets the first attempt, and none the second */
    then(lagumtay_make_reader_step(2), 2 * LAGUMTAY_RECORD_STEPS(Q, N) - Q);

    then(lagumtay_make_begin_record_read(1, 1), 1);
    then(lagumtay_make_reader_step(1), Q);
    write_record_then();
    then(lagumtay_make_reader_step(1), LAGUMTAY_RECORD_STEPS(Q, N) - Q);
}

static int same(const lagumtay_outcome *a, const lagumtay_outcome *b) {
    return a->kind == b->kind && a->reader == b->reader && a->attempts == b->attempts && a->choice == b->choice
           && a->version == b->version && a->count == b->count && a->low == b->low && a->high == b->high;
}

/* What a schedule's steps must have told. */
static void is_told(size_t i, uint8_t kind, uint8_t reader, uint8_t attempts, uint8_t choice, uint32_t version,
                    uint64_t count, uint64_t low, uint64_t high) {
    const lagumtay_outcome outcome = {kind, reader, attempts, choice, version, count, low, high};
    check(same(&told[i], &outcome), "what the steps of the schedule told");
}

/* The entries that are whole in so many bytes of the log, which stand in memory of exactly that size. */
static void entries_of(const uint8_t *log, size_t written) {
    static const size_t ends[ENTRIES + 1] = {0, 10, 28, 35, 38};
    uint8_t *bytes = (uint8_t *)malloc(written);
    if (written > 0)
        memcpy(bytes, log, written);
    size_t at_byte = 0, i = 0;
    lagumtay_outcome entry;
    while (lagumtay_next_entry(bytes, written, &at_byte, &entry)) {
        check(i < ENTRIES && ends[i + 1] <= written, "an entry that is not whole");
        lagumtay_outcome expected = told[i++];
        expected.choice = 0; /* a log does not tell it */
        check(same(&entry, &expected), "an entry and what the step told");
        check(at_byte == ends[i], "the place behind an entry");
    }
    const lagumtay_outcome nothing = {0, 0, 0, 0, 0, 0, 0, 0};
    check(same(&entry, &nothing), "no entry is one of kind 0");
    check(at_byte == ends[i], "no entry leaves the place");
    check(i == ENTRIES || ends[i + 1] > written, "an entry that is whole");
    free(bytes);
}

static void logs(void) {
    by_step = page_of(LAGUMTAY_PLAIN, M, Q, N, READERS, 256);
    check(open_page(&by_step) == LAGUMTAY_OK, "open");
    memcpy(&by_run, &by_step, sizeof by_run);
    schedule();
    check(told_len == ENTRIES, "four reads ended");
    is_told(0, LAGUMTAY_SHOWN, 2, 0, 0, 0, FIRST, 0, 0);
    is_told(1, LAGUMTAY_BETWEEN, 1, 0, LAGUMTAY_HIGH, 0, 0, 0x01ffffffffffffff, 0x1100000000000000);
    is_told(2, LAGUMTAY_ACCEPTED, 2, 2, 0, WRITES, 0, 0, 0);
    is_told(3, LAGUMTAY_GAVE_UP, 1, 1, 0, 0, 0, 0, 0);

    uint8_t log[LAGUMTAY_LOG_LEN(ENTRIES)];
    lagumtay_answer answer;
    check(run_page(&by_run, commands, commands_len, log, sizeof log, &answer) == LAGUMTAY_OK, "the schedule as a run");
    check(memcmp(&by_run, &by_step, sizeof by_run) == 0, "the run and the steps differ");
    check(answer.written == LAGUMTAY_SHOWN_LEN + LAGUMTAY_BETWEEN_LEN + LAGUMTAY_ACCEPTED_LEN + LAGUMTAY_GAVE_UP_LEN,
          "the lengths of the entries");
    for (size_t written = 0; written <= answer.written; written++)
        entries_of(log, written);
}

/* The bytes of an entry as lagumtay_run documents them, made by other means than the helpers; gives how many. */
static size_t documented(const lagumtay_outcome *entry, uint8_t *bytes) {
    size_t len = 0;
    bytes[len++] = entry->kind;
    bytes[len++] = entry->reader;
    if (entry->kind == 2 || entry->kind == 3)
        bytes[len++] = entry->attempts;
    for (int shift = 24; entry->kind == 2 && shift >= 0; shift -= 8)
        bytes[len++] = (uint8_t)(entry->version >> shift);
    for (int shift = 56; entry->kind == 1 && shift >= 0; shift -= 8)
        bytes[len++] = (uint8_t)(entry->count >> shift);
    for (int shift = 56; entry->kind == 4 && shift >= 0; shift -= 8)
        bytes[len++] = (uint8_t)(entry->low >> shift);
    for (int shift = 56; entry->kind == 4 && shift >= 0; shift -= 8)
        bytes[len++] = (uint8_t)(entry->high >> shift);
    return len;
}

/* Do these bytes begin with no entry: an unknown kind, or one cut short? */
static int no_entry(const uint8_t *bytes, size_t left) {
    static const size_t lens[] = {0, 10, 7, 3, 18};
    return left == 0 || bytes[0] == 0 || bytes[0] > 4 || left < lens[bytes[0]];
}

static uint64_t seed = 1;

static uint8_t random_byte(void) {
    seed = seed * 6364136223846793005u + 1442695040888963407u;
    return (uint8_t)(seed >> 56);
}

/* Entries of random bytes, of which many are kinds; each in memory of exactly its size. */
static void random_log(size_t len) {
    uint8_t *bytes = (uint8_t *)malloc(len), again[LAGUMTAY_LONGEST_ENTRY];
    for (size_t i = 0; i < len; i++)
        bytes[i] = random_byte() % 4 == 0 ? (uint8_t)(random_byte() % 6) : random_byte();
    if (len > 0)
        bytes[0] = (uint8_t)(random_byte() % 6);
    size_t at_byte = 0, before = 0;
    lagumtay_outcome entry;
    for (; lagumtay_next_entry(bytes, len, &at_byte, &entry); before = at_byte) {
        check(at_byte > before && at_byte <= len, "an entry's place in random bytes");
        check(entry.kind >= 1 && entry.kind <= 4 && entry.choice == 0, "an entry's kind and choice");
        check(documented(&entry, again) == at_byte - before, "an entry's length");
        check(memcmp(again, bytes + before, at_byte - before) == 0, "an entry has the fields that its bytes say");
    }
    check(at_byte == before && entry.kind == LAGUMTAY_NOTHING, "the end of random bytes");
    check(no_entry(bytes + at_byte, len - at_byte), "an entry was left out");
    free(bytes);
}

static void no_logs(void) {
    lagumtay_outcome entry = {9, 9, 9, 9, 9, 9, 9, 9};
    const size_t beyond[] = {0, 1, 18, SIZE_MAX};
    for (size_t i = 0; i < sizeof beyond / sizeof *beyond; i++) {
        size_t at_byte = beyond[i];
        check(lagumtay_next_entry(NULL, 0, &at_byte, &entry) == 0 && at_byte == beyond[i], "no log at all");
        check(entry.kind == LAGUMTAY_NOTHING && entry.high == 0, "no entry");
    }
    for (unsigned kind = 0; kind < 256; kind++)
        check((lagumtay_entry_len((uint8_t)kind) == 0) == (kind == 0 || kind > 4), "the kinds of entries");
}

static void shown(void) {
    const lagumtay_outcome equal = {LAGUMTAY_SHOWN, 0, 0, 0, 0, 7, 0, 0};
    const lagumtay_outcome parted = {LAGUMTAY_BETWEEN, 0, 0, LAGUMTAY_LOW, 0, 0, 4, 9};
    const lagumtay_outcome record = {LAGUMTAY_ACCEPTED, 0, 1, 0, 5, 0, 0, 0};
    check(lagumtay_shown(&equal, LAGUMTAY_LOW) == 7 && lagumtay_shown(&equal, LAGUMTAY_HIGH) == 7, "equal copies");
    check(lagumtay_shown(&parted, LAGUMTAY_LOW) == 4 && lagumtay_shown(&parted, LAGUMTAY_HIGH) == 9, "either end");
    check(lagumtay_shown(&record, LAGUMTAY_HIGH) == 0, "a record shows no count");
}

/* Every refusal has a text of its own, and all other numbers have one. */
static void texts(void) {
    for (unsigned i = 0; i < 256; i++) {
        const char *text = lagumtay_refusal_text((uint8_t)i);
        check(text != NULL && strlen(text) > 5, "a refusal's text");
        for (unsigned k = 0; k < i; k++) {
            int alike = strcmp(text, lagumtay_refusal_text((uint8_t)k)) == 0;
            check(alike == (k > LAGUMTAY_LOG_FULL), "texts that are the same");
        }
    }
}

int main(void) {
    bytes_of_commands();
    commands_at_work();
    logs();
    no_logs();
    for (size_t len = 0; len <= 64; len++)
        for (int i = 0; i < 200; i++)
            random_log(len);
    shown();
    texts();
    return all_passed();
}
