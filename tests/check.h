/* What the C tests share: a check that ends the program where it fails, and numbers in the bytes of a struct. */
#ifndef CHECK_H
#define CHECK_H

#include <stdint.h>
#include <stdio.h>
#include <stdlib.h>
#include <string.h>

static int checks;
static char place[64]; /* a test may say here what it is at */

static inline void check_at(int good, const char *where, const char *what) {
    checks++;
    if (!good) {
        printf("wrong: %s%s%s\n", where, *where ? ", " : "", what);
        exit(1);
    }
}

static inline void check(int good, const char *what) {
    check_at(good, place, what);
}

/* The end of a test's main. */
static inline int all_passed(void) {
    printf("%d checks passed\n", checks);
    return 0;
}

/* Low byte first, as on every machine that the archives are built for. */
static inline uint64_t at(const uint8_t *bytes, size_t offset, size_t size) {
    uint64_t x = 0;
    memcpy(&x, bytes + offset, size);
    return x;
}

static inline void put(uint8_t *bytes, size_t offset, uint64_t x, size_t size) {
    memcpy(bytes + offset, &x, size);
}

#endif
