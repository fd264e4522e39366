/* What lagumtay.h and lagumtay_queue.h share: the machine that the archives are for, and the version. The headers are
 * C11, and C++11. */
#ifndef LAGUMTAY_BASE_H
#define LAGUMTAY_BASE_H

#include <stddef.h>
#include <stdint.h>

/* The archives hold x86-64 code in ELF objects, with Linux' way of calling. */
#if !defined(__x86_64__) || !defined(__ELF__)
#error "Lagumtay's archives are for x86-64 and ELF, as Linux has them; this compiler builds for another machine."
#endif

/* Before 1.0.0 a new minor version may ask for a caller to be changed. */
#define LAGUMTAY_VERSION_MAJOR 0
#define LAGUMTAY_VERSION_MINOR 2
#define LAGUMTAY_VERSION_PATCH 0

/* The version as text: "0.2.0" for 0, 2 and 0. */
#define LAGUMTAY_VERSION \
    LAGUMTAY_TEXT(LAGUMTAY_VERSION_MAJOR) "." LAGUMTAY_TEXT(LAGUMTAY_VERSION_MINOR) "." \
    LAGUMTAY_TEXT(LAGUMTAY_VERSION_PATCH)
#define LAGUMTAY_TEXT(macro) LAGUMTAY_TEXT_OF(macro)
#define LAGUMTAY_TEXT_OF(value) #value

/* The archives were built with sizes and offsets that the headers assert. */
#ifdef __cplusplus
#define LAGUMTAY_ASSERT(condition) static_assert(condition, #condition)
#else
#define LAGUMTAY_ASSERT(condition) _Static_assert(condition, #condition)
#endif
#define LAGUMTAY_ASSERT_AT(type, field, offset) LAGUMTAY_ASSERT(offsetof(type, field) == (offset))
LAGUMTAY_ASSERT(sizeof(size_t) == 8);

#endif
