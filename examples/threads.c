/* One page and several threads, with a mutex around each single step: a writer counts up and writes records, boards
 * read the count, a desk reads records. Every count shown and every record accepted is checked.
 *
 *     cc -std=c11 -O2 -pthread -Iinclude examples/threads.c target/staticlib/liblagumtay.a -o target/threads
 *     target/threads
 */
#define _POSIX_C_SOURCE 200809L /* barriers */
#include <inttypes.h>
#include <pthread.h>
#include <sched.h>
#include <stdio.h>
#include <stdlib.h>
#include <string.h>

#include "lagumtay.h"

enum { M = 4, Q = 2, N = 8, BOARDS = 3, DESK = BOARDS, READERS = BOARDS + 1 };
enum { ROUNDS = 2000, LEAST_READS = 100, ATTEMPTS = 2, LETTERS = 26 };

static const lagumtay_format format = {.q = Q, .base = 256, .layout = LAGUMTAY_FOLDED, .n = N, .readers = READERS};
static const uint16_t bases[M] = {10, 10, 10, 10};
static uint8_t records[LETTERS * N]; /* the record of version v is N times the letter v mod 26 */

/* What the mutex guards: the page with all that is lent beside it, the last count fully written, the last one begun. */
static pthread_mutex_t mutex = PTHREAD_MUTEX_INITIALIZER;
static uint8_t page[LAGUMTAY_PAGE_LEN(LAGUMTAY_FOLDED, M, Q, N)];
static lagumtay_writer writer;
static lagumtay_reader readers[READERS];
static uint8_t buffers[READERS * N];
static uint64_t written, begun;

static pthread_barrier_t start;

static void fail(const char *what) {
    fprintf(stderr, "wrong: %s\n", what);
    _Exit(1);
}

/* What a step told, and what was so just before it; an accepted record, taken before its reader steps again. */
struct seen {
    lagumtay_outcome outcome;
    uint64_t written, begun;
    uint8_t record[N];
};

/* After a writer step, from the state before it: a count is begun with its first digit, fully written with its last. */
static void note_count(const lagumtay_writer *before) {
    if (before->kind != LAGUMTAY_WRITES_COUNT)
        return;
    begun = before->count;
    if (writer.kind == LAGUMTAY_WRITER_IDLE)
        written = before->count;
}

/* One step, alone on the page: what steps may change is looked at only under the mutex. */
static struct seen step(lagumtay_command command) {
    struct seen seen;
    pthread_mutex_lock(&mutex);
    const lagumtay_writer before = writer;
    seen.written = written;
    seen.begun = begun;
    uint8_t refusal = lagumtay_step(&format, bases, M, page, sizeof page, &writer, readers, READERS, buffers,
                                    sizeof buffers, records, sizeof records, &command, &seen.outcome);
    if (command.kind == LAGUMTAY_WRITER_STEP)
        note_count(&before);
    if (seen.outcome.kind == LAGUMTAY_ACCEPTED)
        memcpy(seen.record, buffers + seen.outcome.reader * N, N);
    pthread_mutex_unlock(&mutex);
    if (refusal != LAGUMTAY_OK)
        fail(lagumtay_refusal_text(refusal));
    sched_yield(); /* only so that the steps of all threads mix well */
    return seen;
}

/* A write: its command, and so many steps. */
static void write_by(lagumtay_command command, size_t steps) {
    step(command);
    while (steps-- > 0)
        step(lagumtay_make_writer_step());
}

static void *write_all(void *unused) {
    pthread_barrier_wait(&start);
    for (unsigned round = 1; round <= ROUNDS; round++) {
        write_by(lagumtay_make_write_count(round), LAGUMTAY_COUNT_STEPS(LAGUMTAY_FOLDED, M));
        write_by(lagumtay_make_write_record((uint16_t)(round % LETTERS)), LAGUMTAY_RECORD_STEPS(Q, N));
    }
    return unused;
}

/* Step a reader until its read ends; `first` is set to what its first step saw. */
static struct seen read_on(uint8_t who, struct seen *first) {
    struct seen last = *first = step(lagumtay_make_reader_step(who));
    while (last.outcome.kind == LAGUMTAY_NOTHING)
        last = step(lagumtay_make_reader_step(who));
    return last;
}

static int in_span(uint64_t count, const struct seen *first, const struct seen *last) {
    return first->written <= count && count <= last->begun;
}

/* A board reads until it has seen the last count. Every second one names the high end. */
static void *read_counts(void *its_number) {
    const uint8_t who = *(const uint8_t *)its_number;
    struct seen first, last;
    pthread_barrier_wait(&start);
    for (int reads = 0; reads < LEAST_READS || first.written < ROUNDS; reads++) {
        step(who % 2 ? lagumtay_make_begin_high_count_read(who) : lagumtay_make_begin_count_read(who));
        last = read_on(who, &first);
        const lagumtay_outcome *told = &last.outcome;
        if (!in_span(lagumtay_shown(told, told->choice), &first, &last))
            fail("a count shown is outside its span");
        if (told->kind == LAGUMTAY_BETWEEN
            && (told->low >= told->high || !in_span(told->low, &first, &last) || !in_span(told->high, &first, &last)))
            fail("an end is outside the span of its read");
    }
    return NULL;
}

/* The desk reads until it has the last record. A read that gives up is begun again. */
static void *read_records(void *unused) {
    struct seen first, last;
    pthread_barrier_wait(&start);
    for (uint32_t version = 0; version < ROUNDS;) {
        step(lagumtay_make_begin_record_read(DESK, ATTEMPTS));
        last = read_on(DESK, &first);
        if (last.outcome.kind != LAGUMTAY_ACCEPTED)
            continue;
        if (memcmp(last.record, records + last.outcome.version % LETTERS * N, N) != 0)
            fail("an accepted record is not the one of its version");
        if (last.outcome.version < version)
            fail("an accepted record is older than the one before it");
        version = last.outcome.version;
    }
    return unused;
}

static void run_threads(void) {
    pthread_t threads[READERS + 1];
    uint8_t numbers[BOARDS];
    int failed = pthread_barrier_init(&start, NULL, READERS + 1);
    for (uint8_t who = 0; who < BOARDS; who++) {
        numbers[who] = who;
        failed |= pthread_create(&threads[who], NULL, read_counts, &numbers[who]);
    }
    failed |= pthread_create(&threads[DESK], NULL, read_records, NULL);
    failed |= pthread_create(&threads[READERS], NULL, write_all, NULL);
    if (failed)
        fail("no thread to be had");
    for (int i = 0; i <= READERS; i++)
        pthread_join(threads[i], NULL);
    pthread_barrier_destroy(&start);
}

int main(void) {
    for (size_t i = 0; i < sizeof records; i++)
        records[i] = (uint8_t)('a' + i / N);
    uint8_t refusal = lagumtay_open(&format, bases, M, page, sizeof page, &writer, readers, READERS, buffers,
                                    sizeof buffers, 0, records, N);
    if (refusal != LAGUMTAY_OK)
        fail(lagumtay_refusal_text(refusal));
    run_threads();
    printf("the writer wrote %d counts and %d records\n", ROUNDS, ROUNDS);
    printf("%d boards, %d counts or more each: every count shown lay in its span\n", BOARDS, LEAST_READS);
    printf("the desk read up to record %d: every record accepted was whole, and none older than the last\n", ROUNDS);
    return 0;
}
