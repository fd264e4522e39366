/* A page of any format with all that the calls are lent, for tests that look at other things than the lending. */
#ifndef PAGE_H
#define PAGE_H

#include "check.h"
#include "lagumtay.h"

/* There is room for one more of each than a format may have. */
enum {
    ROOM_M = LAGUMTAY_MAX_M + 1,
    ROOM_Q = LAGUMTAY_MAX_Q + 1,
    ROOM_N = LAGUMTAY_MAX_N + 1,
    ROOM_READERS = LAGUMTAY_MAX_READERS + 1,
    RECORDS = 2
};

struct page {
    lagumtay_format format;
    size_t m, len;
    uint16_t bases[ROOM_M];
    uint8_t bytes[LAGUMTAY_PAGE_LEN(LAGUMTAY_PLAIN, ROOM_M, ROOM_Q, ROOM_N) + 1];
    lagumtay_writer writer;
    lagumtay_reader readers[ROOM_READERS];
    uint8_t buffers[ROOM_READERS * ROOM_N];
    uint8_t records[RECORDS * ROOM_N];
};

/* A page that is not opened yet: all its bases are the same, and its records are "abc..." */
static inline struct page page_of(uint16_t layout, size_t m, size_t q, size_t n, size_t readers, uint16_t base) {
    static struct page page;
    memset(&page, 0, sizeof page);
    page.format.q = q;
    page.format.base = base;
    page.format.layout = layout;
    page.format.n = n;
    page.format.readers = readers;
    page.m = m;
    page.len = LAGUMTAY_PAGE_LEN(layout, m, q, n);
    for (size_t i = 0; i < m; i++)
        page.bases[i] = base;
    for (size_t i = 0; i < sizeof page.records; i++)
        page.records[i] = (uint8_t)('a' + i % 26);
    return page;
}

static inline uint8_t open_page(struct page *p) {
    return lagumtay_open(&p->format, p->bases, p->m, p->bytes, p->len, &p->writer, p->readers, p->format.readers,
                         p->buffers, p->format.readers * p->format.n, 0, p->records, p->format.n);
}

static inline uint8_t run_page(struct page *p, const uint8_t *commands, size_t len, uint8_t *log, size_t log_len,
                               lagumtay_answer *answer) {
    return lagumtay_run(&p->format, p->bases, p->m, p->bytes, p->len, &p->writer, p->readers, p->format.readers,
                        p->buffers, p->format.readers * p->format.n, p->records, RECORDS * p->format.n, commands, len,
                        log, log_len, answer);
}

static inline uint8_t step_page(struct page *p, lagumtay_command command, lagumtay_outcome *outcome) {
    return lagumtay_step(&p->format, p->bases, p->m, p->bytes, p->len, &p->writer, p->readers, p->format.readers,
                         p->buffers, p->format.readers * p->format.n, p->records, RECORDS * p->format.n, &command,
                         outcome);
}

/* Commands that end no read. */
static inline void quietly(struct page *p, lagumtay_command command, size_t times) {
    while (times-- > 0) {
        lagumtay_outcome outcome;
        check(step_page(p, command, &outcome) == LAGUMTAY_OK, "a command is refused");
        check(outcome.kind == LAGUMTAY_NOTHING, "a read ended");
    }
}

#endif
