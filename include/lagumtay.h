/* Lagumtay: a shared page with one writer and up to 16 readers. The archive is `liblagumtay.a`.
 *
 * IT IS A MACHINE OF SINGLE STEPS. A write and a read go over the page one digit at a time; each digit is a step that
 * somebody calls for, and between two steps of one act all others may take theirs, in any order. No reader waits for
 * the writer to end, nor the writer for a reader: that is what "read without locks" means here. It does not mean that
 * calls may overlap. Calls on one page are made one after another, and the library has no atomics and no locks in it.
 * Who has several threads puts a mutex around each step, as examples/threads.c does,
 *
 *     pthread_mutex_lock(&mutex);
 *     refusal = lagumtay_step(&format, bases, m, page, page_len, ..., &command, &outcome);
 *     if (outcome.kind == LAGUMTAY_ACCEPTED)
 *         memcpy(record, buffers + outcome.reader * n, n);
 *     pthread_mutex_unlock(&mutex);
 *
 * or lets one thread own the page and carry out commands that the others hand it.
 *
 * The rules for a caller: calls on one page are made one after another, and nobody else touches what is lent during
 * one; each pointer goes with its length in elements, and is aligned for its type; what is lent to be written overlaps
 * nothing else that is lent. A pointer with length 0 is not followed.
 *
 * Every function of the archive is total: for any arguments that keep these rules it ends, touches nothing but what it
 * is lent, and answers 0 or the number of one refusal. What it answers and what it leaves is an equation with
 * definitions that can be read in the repository; the comments name them by their path. What is promised over many
 * calls stands at the end.
 *
 * In this order: constants, structs, refusals, calls, promises. The last line includes lagumtay_helpers.h: commands
 * made and put into bytes, the entries of a log, refusals as text. They are C and not proved.
 */
#ifndef LAGUMTAY_H
#define LAGUMTAY_H

#include "lagumtay_base.h"

#ifdef __cplusplus
extern "C" {
#endif

/* The layouts of a page. Plain: the count stands on it twice, as c1 and c2 of m digits each. Folded: the last digits of
 * c1 and c2 are one digit, which is written once and read once, so that each has m - 1 digits of its own. */
enum lagumtay_layout { LAGUMTAY_PLAIN = 0, LAGUMTAY_FOLDED = 1 };

/* Which end a count read shows where its copies part. Low is what command 04 leaves, which names none; 0D names the
 * high end. The count shown there is `choice == LAGUMTAY_HIGH ? high : low`; equal copies show their count under either
 * choice.
 * crates/radix/specs/Copies.antt, `shown`. */
enum lagumtay_choice { LAGUMTAY_LOW = 0, LAGUMTAY_HIGH = 1 };

/* The ranges of a page's numbers: m count places of a base each, q version places of one base, n bytes of record, so
 * many readers; and of the attempts that a record read is allowed. Each is at least 1, and a base at least 2.
 * crates/protocol/specs/Form.antt, `good_form`. */
enum {
    LAGUMTAY_MAX_M = 8,
    LAGUMTAY_MAX_Q = 4,
    LAGUMTAY_MIN_BASE = 2,
    LAGUMTAY_MAX_BASE = 256,
    LAGUMTAY_MAX_N = 256,
    LAGUMTAY_MAX_READERS = 16,
    LAGUMTAY_MAX_ATTEMPTS = 255
};

/* The kinds of commands: the first byte of one for lagumtay_run, the kind of one for lagumtay_step. The bytes of each
 * are listed at lagumtay_run. */
enum lagumtay_command_kind {
    LAGUMTAY_WRITE_COUNT = 0x01,
    LAGUMTAY_WRITE_RECORD = 0x02,
    LAGUMTAY_WRITER_STEP = 0x03,
    LAGUMTAY_BEGIN_COUNT_READ = 0x04,
    LAGUMTAY_BEGIN_RECORD_READ = 0x05,
    LAGUMTAY_READER_STEP = 0x06,
    LAGUMTAY_CANCEL_READ = 0x07,
    LAGUMTAY_BEGIN_HIGH_COUNT_READ = 0x0D
};

/* How many bytes a command has. */
enum {
    LAGUMTAY_WRITE_COUNT_LEN = 9,
    LAGUMTAY_WRITE_RECORD_LEN = 3,
    LAGUMTAY_WRITER_STEP_LEN = 1,
    LAGUMTAY_BEGIN_COUNT_READ_LEN = 2,
    LAGUMTAY_BEGIN_RECORD_READ_LEN = 3,
    LAGUMTAY_READER_STEP_LEN = 2,
    LAGUMTAY_CANCEL_READ_LEN = 2,
    LAGUMTAY_BEGIN_HIGH_COUNT_READ_LEN = 2,
    LAGUMTAY_LONGEST_COMMAND = 9
};

/* How a step ended: the first byte of an entry in the log, the kind of an outcome. A log has no entry of kind 0. */
enum lagumtay_outcome_kind {
    LAGUMTAY_NOTHING = 0,  /* no read finished */
    LAGUMTAY_SHOWN = 1,    /* a count shown: the copies were equal */
    LAGUMTAY_ACCEPTED = 2, /* a record accepted */
    LAGUMTAY_GAVE_UP = 3,  /* a record read gave up */
    LAGUMTAY_BETWEEN = 4   /* between two counts: the copies differed */
};

/* How many bytes an entry of the log has. */
enum {
    LAGUMTAY_SHOWN_LEN = 10,
    LAGUMTAY_ACCEPTED_LEN = 7,
    LAGUMTAY_GAVE_UP_LEN = 3,
    LAGUMTAY_BETWEEN_LEN = 18,
    LAGUMTAY_LONGEST_ENTRY = 18
};

/* The kinds of the writer's state, and of a reader's. */
enum lagumtay_writer_kind { LAGUMTAY_WRITER_IDLE = 0, LAGUMTAY_WRITES_COUNT = 1, LAGUMTAY_WRITES_RECORD = 2 };
enum lagumtay_reader_kind { LAGUMTAY_READER_IDLE = 0, LAGUMTAY_READS_COUNT = 1, LAGUMTAY_READS_RECORD = 2 };

/* How many bytes lagumtay_pack makes of one reader's state. */
enum { LAGUMTAY_PACKED = 28 };

/* The steps of a count write or read; those of a record write, or of one attempt at a record read; the bytes of a page;
 * a log that has room whatever so many reader steps end with. Constants if the arguments are, each of which is
 * evaluated once. */
#define LAGUMTAY_COUNT_STEPS(layout, m) (2 * (size_t)(m) - (size_t)((layout) == LAGUMTAY_FOLDED))
#define LAGUMTAY_RECORD_STEPS(q, n) (2 * (size_t)(q) + (size_t)(n))
#define LAGUMTAY_PAGE_LEN(layout, m, q, n) (LAGUMTAY_COUNT_STEPS(layout, m) + LAGUMTAY_RECORD_STEPS(q, n))
#define LAGUMTAY_LOG_LEN(reader_steps) (LAGUMTAY_LONGEST_ENTRY * (size_t)(reader_steps))

/* The numbers of a page but for the m count bases, which are lent beside it: q version places of this base, the layout
 * (LAGUMTAY_PLAIN or LAGUMTAY_FOLDED), n bytes of record, so many readers. The constants above have the ranges.
 * crates/protocol/specs/Form.antt, `good_form`. */
typedef struct {
    size_t q;
    uint16_t base;
    uint16_t layout;
    size_t n;
    size_t readers;
} lagumtay_format;

/* The writer's state. kind 0: nothing pending; 1: a count; 2: a record (enum lagumtay_writer_kind). Steps are those
 * taken of the pending write; a count write has 2m of them, on a folded page 2m - 1. Fields that the kind does not use
 * are zero.
 * crates/protocol/specs/Memory.antt, `stored_writing`. */
typedef struct {
    uint64_t count;
    size_t index;
    size_t steps;
    uint32_t version;
    uint32_t kind;
} lagumtay_writer;

/* A reader's state. kind 0: idle; 1: a count read; 2: a record read (enum lagumtay_reader_kind). Steps are those taken
 * of the count read, which has as many as a count write, or of the attempt. The choice is a count read's, LAGUMTAY_LOW
 * or LAGUMTAY_HIGH, as the command that began it named it. Digits gathered of c1 (or v2) stand from digits[0] on, those
 * of c2 (or v1) from digits[8] on; those not gathered, and fields that the kind does not use, are zero: so is the
 * choice of an idle reader and of a record read. The shared digit of a folded page stands with those of c1, at
 * digits[m - 1]: digits[8 + m - 1] is zero there. The four bytes before steps are padding and hold nothing; no promise
 * speaks of them. The choice lies in what was padding: who was compiled with the older header, in which that byte held
 * nothing, must be compiled anew.
 * crates/protocol/specs/Memory.antt, `stored_reading`. */
typedef struct {
    uint8_t kind;
    uint8_t allowed;
    uint8_t finished;
    uint8_t choice;
    size_t steps;
    uint8_t digits[16];
} lagumtay_reader;

/* What a run tells beside its refusal: commands carried out, bytes written into the log, and bytes taken of the
 * commands: those of the commands carried out, so that a refused one begins there.
 * crates/lagumtay/specs/Run.antt, `answer_of`; crates/page/specs/Calls.antt, `bytes_of`. */
typedef struct {
    size_t done;
    size_t written;
    size_t taken;
} lagumtay_answer;

/* A command for a step, by the kinds of the commands' bytes, which lagumtay_run lists: 1 to 7 and 0x0D (enum
 * lagumtay_command_kind). A field that its kind does not ask for is not looked at. lagumtay_helpers.h makes them.
 * crates/lagumtay/specs/Step.antt, `command_of`. */
typedef struct {
    uint8_t kind;
    uint8_t reader;
    uint8_t attempts;
    uint16_t index;
    uint64_t count;
} lagumtay_command;

/* What a step tells beside its refusal, by the kinds of the log's entries (enum lagumtay_outcome_kind). kind 0: no read
 * finished; 1: a count shown; 2: a record accepted; 3: a read gave up; 4: between two counts, the low end and the high
 * end, and the choice with which the read was begun, which no other kind tells. Fields that the kind does not have are
 * zero. The choice lies in what was padding: who was compiled with the older header must be compiled anew.
 * crates/lagumtay/specs/Step.antt, `entry_of`. */
typedef struct {
    uint8_t kind;
    uint8_t reader;
    uint8_t attempts;
    uint8_t choice;
    uint32_t version;
    uint64_t count;
    uint64_t low;
    uint64_t high;
} lagumtay_outcome;

/* The refusals. Checks go 1, 2, 3, 11, 8, 6 or 7, 4, 5, 9, 10, 12; the first that applies is answered.
 * crates/protocol/specs/Outcome.antt, `refusal_number`; the order is that of the definitions below. */
enum lagumtay_refusal {
    LAGUMTAY_OK = 0,
    LAGUMTAY_BAD_FORMAT = 1,         /* a number of the format is outside its range */
    LAGUMTAY_WRONG_LENGTH = 2,       /* page, readers, buffers or record differ in length from the format; the records
                                        are no multiple of n; the packed bytes are not 28 for each reader */
    LAGUMTAY_INVALID_STATE = 3,      /* a digit at or above its base, or a state that no steps could hold; also a
                                        pending record write whose record is not among those that are lent */
    LAGUMTAY_COUNT_TOO_LARGE = 4,    /* a count not below the product of the bases */
    LAGUMTAY_COUNT_DECREASES = 5,    /* a count below the one in c2, to which a shared digit belongs */
    LAGUMTAY_BUSY = 6,               /* a write is pending, or this reader has a read unfinished */
    LAGUMTAY_NOTHING_PENDING = 7,    /* a step or cancel with none to do */
    LAGUMTAY_NO_SUCH = 8,            /* reader or record beyond the last, or 0 attempts */
    LAGUMTAY_VERSIONS_EXHAUSTED = 9, /* v1 stands at its top version */
    LAGUMTAY_COPIES_CROSSED = 10,    /* a count read would finish with its first copy above its second */
    LAGUMTAY_UNKNOWN_COMMAND = 11,   /* unknown kind, or a body cut short */
    LAGUMTAY_LOG_FULL = 12           /* the entry that this step makes, of 3 to 18 bytes by its kind, does not fit; the
                                        step can be taken again with another log */
};

/* Open a page: the first count in both copies, version 0 in v1 and v2, the first record; nothing pending, all readers
 * idle, all buffers zero. What was lent before does not matter. It checks 1, 2 and 4 only; a refused opening changes
 * nothing.
 *   page     plain, 2m + 2q + n bytes: c1 (m digits), c2 (m), v1 (q), the record (n), v2 (q)
 *            folded, 2m - 1 + 2q + n bytes: c1's own digits (m - 1), the shared digit, c2's own (m - 1), v1, record, v2
 *   readers  as many as the format says
 *   buffers  n bytes for each reader, one after the other
 *   record   n bytes
 * crates/protocol/specs/Run.antt, `open_page`; State.antt, `opened`; this call: crates/lagumtay/specs/Calls.antt,
 * `open_call`. */
uint8_t lagumtay_open(const lagumtay_format *format, const uint16_t *bases, size_t m, uint8_t *page, size_t page_len,
                      lagumtay_writer *writer, lagumtay_reader *readers, size_t readers_len, uint8_t *buffers,
                      size_t buffers_len, uint64_t count, const uint8_t *record, size_t record_len);

/* Carry out commands in order, up to the first that is refused. The refused one has changed nothing, the ones before it
 * have been carried out; the answer tells how many, how many bytes of the log are written, and how many bytes the
 * commands carried out have. The other bytes of the log keep their contents. Refusals 1 to 3 are checked once at the
 * start: then nothing at all has changed and all numbers of the answer are 0. A count write goes over c2 left to right,
 * then over c1 right to left, and a count read the other way; the shared digit of a folded page is one step of either.
 *   records   the lent records, n bytes each; there may be none. Each run may bring new ones while no record write is
 *             pending; while one is (writer kind 2, LAGUMTAY_WRITES_RECORD), the record at the writer's index stays the
 *             one that was announced
 *   commands  a byte of kind, then its body; longer numbers are high byte first
 *               01 write a count (8 bytes)            05 begin a record read (reader, attempts allowed)
 *               02 write a record (2 bytes: index)    06 reader step (reader)
 *               03 writer step                        07 cancel a read (reader)
 *               04 begin a count read (reader)        0D begin a count read that names the high end (reader)
 *   log       entries of finished reads
 *               01 count shown: the copies were equal (reader, 8 bytes of count)
 *               02 record accepted (reader, attempts used, 4 bytes of version); the record is in the reader's buffer
 *               03 gave up (reader, attempts used); the reader's buffer is all zeros
 *               04 between two counts: the copies differed (reader, 8 bytes of low end, 8 bytes of high end); both
 *                  ends under either choice, which is not told: who needs it knows what began the read
 *
 * TAKE AN ACCEPTED RECORD FROM THE READER'S BUFFER BEFORE THAT READER STEPS AGAIN. A log is looked at when the run is
 * over. If the reader began another record read in the same run, its steps have written over the record by then, and
 * the entry tells of bytes that are gone. Any of these avoids it:
 *   - lagumtay_step, which tells an acceptance at once;
 *   - runs that end where an attempt does, after every 2q + n steps of a record read (LAGUMTAY_RECORD_STEPS);
 *   - after a record read that ended in a run, no other of that reader begun in that run: but for an opening, only the
 *     steps of a reader's own record read write its buffer; count reads and a cancel leave it.
 *
 * How long a log must be: LAGUMTAY_LONGEST_ENTRY bytes for each reader step of the run always suffice
 * (LAGUMTAY_LOG_LEN), and so many free bytes have room for the next entry. A run that is refused by 12 has lost
 * nothing: take the entries, and run the commands from `taken` on with an empty log.
 *
 * crates/protocol/specs/Run.antt, `run`; commands: Command.antt, `decode`; one command: Step.antt, `carry`; log
 * entries: Outcome.antt, `entry`; refusal 3: Load.antt, `valid_memory`; this call: crates/lagumtay/specs/Run.antt,
 * `run_call`. */
uint8_t lagumtay_run(const lagumtay_format *format, const uint16_t *bases, size_t m, uint8_t *page, size_t page_len,
                     lagumtay_writer *writer, lagumtay_reader *readers, size_t readers_len, uint8_t *buffers,
                     size_t buffers_len, const uint8_t *records, size_t records_len, const uint8_t *commands,
                     size_t commands_len, uint8_t *log, size_t log_len, lagumtay_answer *answer);

/* Carry out one command and tell how it ended, with no bytes and no log: the checks of a run, then the command. Refusal
 * 12 is never answered. A kind other than 1 to 7 and 0x0D is refusal 11, after 1 to 3. A refused step changes nothing
 * but the outcome, which it makes kind 0.
 *   records   as for lagumtay_run
 * crates/protocol/specs/Step.antt, `carry`; this call: crates/lagumtay/specs/Step.antt, `step_call`, with `step_lent` of
 * crates/page/specs/Calls.antt. */
uint8_t lagumtay_step(const lagumtay_format *format, const uint16_t *bases, size_t m, uint8_t *page, size_t page_len,
                      lagumtay_writer *writer, lagumtay_reader *readers, size_t readers_len, uint8_t *buffers,
                      size_t buffers_len, const uint8_t *records, size_t records_len, const lagumtay_command *command,
                      lagumtay_outcome *outcome);

/* Cancel the read of one reader: the step of command 07. The reader is idle then, and its buffer keeps its bytes; only
 * its state is written. Refusals 1, 2, 3, 8 and 7, in this order; a refused one changes nothing.
 * crates/protocol/specs/Step.antt, `carry` of `Cancel`; this call: crates/lagumtay/specs/Calls.antt, `cancel_call`. */
uint8_t lagumtay_cancel(const lagumtay_format *format, const uint16_t *bases, size_t m, const uint8_t *page,
                        size_t page_len, const lagumtay_writer *writer, lagumtay_reader *readers, size_t readers_len,
                        const uint8_t *buffers, size_t buffers_len, const uint8_t *records, size_t records_len,
                        uint8_t who);

/* TO SAVE A PAGE AND GO ON LATER: keep its format and bases, the page, the writer, the readers (lagumtay_pack makes bytes
 * of them that are the same on any machine), the buffers, and, if a record write is pending, the records. A run of no
 * commands over what was restored answers 1 to 3 if it cannot be what runs left. It answers 0 for some memory that
 * nobody opened too, all zeros among it: what is promised is promised from an opening. */

/* Put readers' states into bytes, 28 for each: kind, allowed, finished, choice, steps (8 bytes, high byte first), 16
 * digits. It checks only that there are so many bytes; if not, it answers refusal 2 and writes nothing. Any states can
 * be packed.
 * crates/codec/specs/Packed.antt, `packed`; crates/packed/specs/States.antt, `pack_all`; this call:
 * crates/lagumtay/specs/Calls.antt, `pack_call`. */
uint8_t lagumtay_pack(const lagumtay_reader *readers, size_t readers_len, uint8_t *bytes, size_t bytes_len);

/* Take readers' states out of bytes, the other way round: what was packed is there again, field by field. It checks the
 * length as lagumtay_pack does. Any bytes can be unpacked; a state that no steps could hold is refused by the next run,
 * step or cancel, by 3.
 * crates/codec/specs/Packed.antt, `unpacked`; crates/packed/specs/States.antt, `unpack_all`; this call:
 * crates/lagumtay/specs/Calls.antt, `unpack_call`. */
uint8_t lagumtay_unpack(lagumtay_reader *readers, size_t readers_len, const uint8_t *bytes, size_t bytes_len);

/* WHAT IS PROMISED over all runs from an accepted opening, with the same format, nobody else writing what is lent, no
 * two calls at once, and records changed only as said at lagumtay_run. CHANGE NO LENT RECORD WHILE ITS WRITE IS
 * PENDING: the library cannot see it, and a write that is begun from one record and ended from another is read, and
 * accepted, as a mixture of both. All of it is one theorem: crates/protocol/specs/Demand.antt, `GeneralClaim`; over one
 * list of records throughout, `Claim`. A step counts as the run of its one command with a log that has room:
 * crates/page/specs/Calls.antt, `CarriesStep`, in the contract of lagumtay_step. */

/* Every finished count read ends with equal copies or between two counts. A read's span goes from the last count fully
 * written before its first step to the last one begun before its last step. The count shown, by the choice of the
 * command that began the read, lies in the span, and so do both ends. Equal copies show their count under either
 * choice, and somebody wrote it: it is the opening's, or that of a write begun before the read's last step. Between:
 * the low end is below the high end, though perhaps nobody wrote them; a read begun by 04 shows the low end, one begun
 * by 0D the high end (`shown` of crates/radix/specs/Copies.antt). The low end may be above every count fully written
 * (bases 10 and 10, 05 half turned into 30: 09 is shown); nothing more is promised of it. Demand.antt, `CountEnds`,
 * `InSpan`, `Begun`. */

/* An accepted record is whole: the bytes in the buffer, right after the step that accepted it, are those of one
 * write, and the version is the number of that write, 0 for the opening. Take them before that reader steps again: the
 * steps of its next record read write the same buffer. Demand.antt, `Reports`. */

/* Whole record writes and accepted record reads are linearizable: they stand in one order, each at a point between its
 * first and its last step, and a read has the record of the last write before it. Demand.antt, `Linearization`. */

/* An attempt at a record read that no unfinished record write meets is accepted. Demand.antt, `Undisturbed`. */

/* A record read takes at most the attempts that it was allowed, of 2q + n of its own steps each; giving up is told,
 * comes with the last attempt only, and leaves a buffer of zeros. Demand.antt, `Ends`, `Used`. */

/* Every command carried out fitted: no write begins over a pending one, no read over a running one, and nothing is
 * stepped or cancelled that is not there. The writer is where the history of commands has it. Demand.antt, `orderly`,
 * `Writes`. */

/* A refused command changes nothing: what a run leaves is the state after its last command carried out, or what it
 * began with. Demand.antt, `state_after`. */

/* No run is refused by 1, 3 or 10, and by 2 exactly if the records are no multiple of n: another such answer says
 * that something that was lent has been written by somebody else, or that the record of a pending write is no longer
 * lent. Demand.antt, `Mild`. */

/* The archive was built with these sizes and offsets. */
LAGUMTAY_ASSERT(sizeof(lagumtay_format) == 32);
LAGUMTAY_ASSERT_AT(lagumtay_format, q, 0);
LAGUMTAY_ASSERT_AT(lagumtay_format, base, 8);
LAGUMTAY_ASSERT_AT(lagumtay_format, layout, 10);
LAGUMTAY_ASSERT_AT(lagumtay_format, n, 16);
LAGUMTAY_ASSERT_AT(lagumtay_format, readers, 24);
LAGUMTAY_ASSERT(sizeof(lagumtay_writer) == 32);
LAGUMTAY_ASSERT_AT(lagumtay_writer, count, 0);
LAGUMTAY_ASSERT_AT(lagumtay_writer, index, 8);
LAGUMTAY_ASSERT_AT(lagumtay_writer, steps, 16);
LAGUMTAY_ASSERT_AT(lagumtay_writer, version, 24);
LAGUMTAY_ASSERT_AT(lagumtay_writer, kind, 28);
LAGUMTAY_ASSERT(sizeof(lagumtay_reader) == 32);
LAGUMTAY_ASSERT_AT(lagumtay_reader, kind, 0);
LAGUMTAY_ASSERT_AT(lagumtay_reader, allowed, 1);
LAGUMTAY_ASSERT_AT(lagumtay_reader, finished, 2);
LAGUMTAY_ASSERT_AT(lagumtay_reader, choice, 3);
LAGUMTAY_ASSERT_AT(lagumtay_reader, steps, 8);
LAGUMTAY_ASSERT_AT(lagumtay_reader, digits, 16);
LAGUMTAY_ASSERT(sizeof(lagumtay_answer) == 24);
LAGUMTAY_ASSERT_AT(lagumtay_answer, done, 0);
LAGUMTAY_ASSERT_AT(lagumtay_answer, written, 8);
LAGUMTAY_ASSERT_AT(lagumtay_answer, taken, 16);
LAGUMTAY_ASSERT(sizeof(lagumtay_command) == 16);
LAGUMTAY_ASSERT_AT(lagumtay_command, kind, 0);
LAGUMTAY_ASSERT_AT(lagumtay_command, reader, 1);
LAGUMTAY_ASSERT_AT(lagumtay_command, attempts, 2);
LAGUMTAY_ASSERT_AT(lagumtay_command, index, 4);
LAGUMTAY_ASSERT_AT(lagumtay_command, count, 8);
LAGUMTAY_ASSERT(sizeof(lagumtay_outcome) == 32);
LAGUMTAY_ASSERT_AT(lagumtay_outcome, kind, 0);
LAGUMTAY_ASSERT_AT(lagumtay_outcome, reader, 1);
LAGUMTAY_ASSERT_AT(lagumtay_outcome, attempts, 2);
LAGUMTAY_ASSERT_AT(lagumtay_outcome, choice, 3);
LAGUMTAY_ASSERT_AT(lagumtay_outcome, version, 4);
LAGUMTAY_ASSERT_AT(lagumtay_outcome, count, 8);
LAGUMTAY_ASSERT_AT(lagumtay_outcome, low, 16);
LAGUMTAY_ASSERT_AT(lagumtay_outcome, high, 24);

#ifdef __cplusplus
}
#endif

#include "lagumtay_helpers.h"

#endif
