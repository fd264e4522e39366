/* Helpers for callers of lagumtay.h, which includes this file: commands made and put into bytes, the entries of a log,
 * refusals as text. They are C, tested (tests/helpers.c) and not proved, and call nothing in the archive.
 */
#ifndef LAGUMTAY_HELPERS_H
#define LAGUMTAY_HELPERS_H

#include "lagumtay.h"

#ifdef __cplusplus
extern "C" {
#endif

/* COMMANDS FOR lagumtay_step */

static inline lagumtay_command lagumtay_make(uint8_t kind, uint8_t reader, uint8_t attempts, uint16_t index,
                                             uint64_t count) {
    lagumtay_command command = {kind, reader, attempts, index, count};
    return command;
}

static inline lagumtay_command lagumtay_make_write_count(uint64_t count) {
    return lagumtay_make(LAGUMTAY_WRITE_COUNT, 0, 0, 0, count);
}

static inline lagumtay_command lagumtay_make_write_record(uint16_t index) {
    return lagumtay_make(LAGUMTAY_WRITE_RECORD, 0, 0, index, 0);
}

static inline lagumtay_command lagumtay_make_writer_step(void) {
    return lagumtay_make(LAGUMTAY_WRITER_STEP, 0, 0, 0, 0);
}

static inline lagumtay_command lagumtay_make_begin_count_read(uint8_t reader) {
    return lagumtay_make(LAGUMTAY_BEGIN_COUNT_READ, reader, 0, 0, 0);
}

static inline lagumtay_command lagumtay_make_begin_high_count_read(uint8_t reader) {
    return lagumtay_make(LAGUMTAY_BEGIN_HIGH_COUNT_READ, reader, 0, 0, 0);
}

static inline lagumtay_command lagumtay_make_begin_record_read(uint8_t reader, uint8_t attempts) {
    return lagumtay_make(LAGUMTAY_BEGIN_RECORD_READ, reader, attempts, 0, 0);
}

static inline lagumtay_command lagumtay_make_reader_step(uint8_t reader) {
    return lagumtay_make(LAGUMTAY_READER_STEP, reader, 0, 0, 0);
}

static inline lagumtay_command lagumtay_make_cancel_read(uint8_t reader) {
    return lagumtay_make(LAGUMTAY_CANCEL_READ, reader, 0, 0, 0);
}

/* COMMANDS FOR lagumtay_run. Each function puts the bytes of one command at a place with room for them, and gives how
 * many they are: `len += lagumtay_put_writer_step(commands + len)`. LAGUMTAY_LONGEST_COMMAND bytes always suffice. */

/* How many bytes a command of this kind has; 0 if the kind is unknown. */
static inline size_t lagumtay_command_len(uint8_t kind) {
    switch (kind) {
    case LAGUMTAY_WRITE_COUNT: return LAGUMTAY_WRITE_COUNT_LEN;
    case LAGUMTAY_WRITE_RECORD: return LAGUMTAY_WRITE_RECORD_LEN;
    case LAGUMTAY_WRITER_STEP: return LAGUMTAY_WRITER_STEP_LEN;
    case LAGUMTAY_BEGIN_COUNT_READ: return LAGUMTAY_BEGIN_COUNT_READ_LEN;
    case LAGUMTAY_BEGIN_RECORD_READ: return LAGUMTAY_BEGIN_RECORD_READ_LEN;
    case LAGUMTAY_READER_STEP: return LAGUMTAY_READER_STEP_LEN;
    case LAGUMTAY_CANCEL_READ: return LAGUMTAY_CANCEL_READ_LEN;
    case LAGUMTAY_BEGIN_HIGH_COUNT_READ: return LAGUMTAY_BEGIN_HIGH_COUNT_READ_LEN;
    default: return 0;
    }
}

/* A number of so many bytes, high byte first: put there, and taken from there. */
static inline void lagumtay_put_number(uint8_t *at, uint64_t number, size_t len) {
    for (; len > 0; number >>= 8)
        at[--len] = (uint8_t)(number & 0xff);
}

static inline uint64_t lagumtay_number_at(const uint8_t *at, size_t len) {
    uint64_t number = 0;
    for (size_t i = 0; i < len; i++)
        number = number << 8 | at[i];
    return number;
}

/* Any command, as it is made above. Of an unknown kind no byte is put, and 0 is given. */
static inline size_t lagumtay_put_command(uint8_t *at, lagumtay_command command) {
    const size_t len = lagumtay_command_len(command.kind);
    if (len == 0)
        return 0;
    at[0] = command.kind;
    switch (command.kind) {
    case LAGUMTAY_WRITE_COUNT: lagumtay_put_number(at + 1, command.count, 8); break;
    case LAGUMTAY_WRITE_RECORD: lagumtay_put_number(at + 1, command.index, 2); break;
    case LAGUMTAY_WRITER_STEP: break;
    case LAGUMTAY_BEGIN_RECORD_READ:
        at[1] = command.reader;
        at[2] = command.attempts;
        break;
    default: at[1] = command.reader;
    }
    return len;
}

static inline size_t lagumtay_put_write_count(uint8_t *at, uint64_t count) {
    return lagumtay_put_command(at, lagumtay_make_write_count(count));
}

static inline size_t lagumtay_put_write_record(uint8_t *at, uint16_t index) {
    return lagumtay_put_command(at, lagumtay_make_write_record(index));
}

static inline size_t lagumtay_put_writer_step(uint8_t *at) {
    return lagumtay_put_command(at, lagumtay_make_writer_step());
}

static inline size_t lagumtay_put_begin_count_read(uint8_t *at, uint8_t reader) {
    return lagumtay_put_command(at, lagumtay_make_begin_count_read(reader));
}

static inline size_t lagumtay_put_begin_high_count_read(uint8_t *at, uint8_t reader) {
    return lagumtay_put_command(at, lagumtay_make_begin_high_count_read(reader));
}

static inline size_t lagumtay_put_begin_record_read(uint8_t *at, uint8_t reader, uint8_t attempts) {
    return lagumtay_put_command(at, lagumtay_make_begin_record_read(reader, attempts));
}

static inline size_t lagumtay_put_reader_step(uint8_t *at, uint8_t reader) {
    return lagumtay_put_command(at, lagumtay_make_reader_step(reader));
}

static inline size_t lagumtay_put_cancel_read(uint8_t *at, uint8_t reader) {
    return lagumtay_put_command(at, lagumtay_make_cancel_read(reader));
}

/* THE ENTRIES OF A LOG */

/* How many bytes an entry of this kind has; 0 if the kind is unknown. */
static inline size_t lagumtay_entry_len(uint8_t kind) {
    switch (kind) {
    case LAGUMTAY_SHOWN: return LAGUMTAY_SHOWN_LEN;
    case LAGUMTAY_ACCEPTED: return LAGUMTAY_ACCEPTED_LEN;
    case LAGUMTAY_GAVE_UP: return LAGUMTAY_GAVE_UP_LEN;
    case LAGUMTAY_BETWEEN: return LAGUMTAY_BETWEEN_LEN;
    default: return 0;
    }
}

/* The entry at *at of a log of which so many bytes are written; 1 and *at behind it, or 0, an entry of kind 0 and *at
 * unchanged. It gives 0 at the end, and for bytes that no run writes: an unknown kind, an entry cut short. Then *at is
 * below `written`. Nothing is read from `written` on.
 *
 *     lagumtay_outcome entry;
 *     for (size_t at = 0; lagumtay_next_entry(log, answer.written, &at, &entry);)
 *
 * A log does not tell the choice: it is 0 in every entry, whatever began the read. */
static inline int lagumtay_next_entry(const uint8_t *log, size_t written, size_t *at, lagumtay_outcome *entry) {
    const lagumtay_outcome nothing = {LAGUMTAY_NOTHING, 0, 0, 0, 0, 0, 0, 0};
    *entry = nothing;
    if (*at >= written)
        return 0;
    const uint8_t *bytes = log + *at;
    const size_t len = lagumtay_entry_len(bytes[0]);
    if (len == 0 || len > written - *at)
        return 0;
    entry->kind = bytes[0];
    entry->reader = bytes[1];
    switch (entry->kind) {
    case LAGUMTAY_SHOWN: entry->count = lagumtay_number_at(bytes + 2, 8); break;
    case LAGUMTAY_ACCEPTED:
        entry->attempts = bytes[2];
        entry->version = (uint32_t)lagumtay_number_at(bytes + 3, 4);
        break;
    case LAGUMTAY_GAVE_UP: entry->attempts = bytes[2]; break;
    default:
        entry->low = lagumtay_number_at(bytes + 2, 8);
        entry->high = lagumtay_number_at(bytes + 10, 8);
    }
    *at += len;
    return 1;
}

/* The count that a read shows which was begun with this choice; 0 of an outcome that has no count. For what a step told
 * the choice is outcome.choice; for an entry of a log it is the caller who knows.
 * crates/radix/specs/Copies.antt, `shown`. */
static inline uint64_t lagumtay_shown(const lagumtay_outcome *outcome, uint8_t choice) {
    if (outcome->kind != LAGUMTAY_BETWEEN)
        return outcome->count;
    return choice == LAGUMTAY_HIGH ? outcome->high : outcome->low;
}

/* REFUSALS AS TEXT, for any number */
static inline const char *lagumtay_refusal_text(uint8_t refusal) {
    switch (refusal) {
    case LAGUMTAY_OK: return "not refused";
    case LAGUMTAY_BAD_FORMAT: return "a number of the format is outside its range";
    case LAGUMTAY_WRONG_LENGTH: return "a length differs from the format, or the records are no multiple of n";
    case LAGUMTAY_INVALID_STATE: return "a digit at or above its base, or a state that no steps could hold";
    case LAGUMTAY_COUNT_TOO_LARGE: return "a count not below the product of the bases";
    case LAGUMTAY_COUNT_DECREASES: return "a count below the last one";
    case LAGUMTAY_BUSY: return "a write is pending, or this reader has a read unfinished";
    case LAGUMTAY_NOTHING_PENDING: return "a step or cancel with none to do";
    case LAGUMTAY_NO_SUCH: return "a reader or record beyond the last, or 0 attempts";
    case LAGUMTAY_VERSIONS_EXHAUSTED: return "the version stands at its top";
    case LAGUMTAY_COPIES_CROSSED: return "a count read would finish with its first copy above its second";
    case LAGUMTAY_UNKNOWN_COMMAND: return "an unknown kind of command, or a body cut short";
    case LAGUMTAY_LOG_FULL: return "the log has no room for the entry of this step";
    default: return "no number of a refusal";
    }
}

#ifdef __cplusplus
}
#endif

#endif
