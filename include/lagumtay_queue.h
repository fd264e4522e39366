/* Lagumtay's hand-over queue: parcels go from one sender to one receiver. The archive is `liblagumtay_queue.a`. It
 * needs no page and can be used beside one.
 *
 * IT IS A MACHINE OF SINGLE STEPS. A sending and a receiving go over the queue one digit or byte at a time; each is a
 * step that somebody calls for, and between two steps of one side the other may take its own. Neither side waits for
 * the other to end: that is what "without locks" means here. It does not mean that calls may overlap. Calls on one
 * queue are made one after another, and the library has no atomics and no locks in it. Who has several threads puts a
 * mutex around each call, as examples/threads.c does with the steps of a page, or lets one thread own the queue.
 *
 * The rules for a caller: calls on one queue are made one after another, and nobody else touches what is lent during
 * one; each pointer goes with its length in elements, and is aligned for its type; what is lent to be written overlaps
 * nothing else that is lent. A pointer with length 0 is not followed.
 *
 * Every function of the archive is total: for any arguments that keep these rules it ends, touches nothing but what it
 * is lent, and answers 0 or the number of one refusal; a refused call changes nothing. What it answers and what it
 * leaves is an equation with definitions that can be read in the repository; the comments name them by their path.
 */
#ifndef LAGUMTAY_QUEUE_H
#define LAGUMTAY_QUEUE_H

#include "lagumtay_base.h"

#ifdef __cplusplus
extern "C" {
#endif

/* The ranges of a queue's numbers: m digits of a base each, parcels of n bytes, places for so many parcels. Each is at
 * least 1, and a base at least 2.
 * crates/queue/specs/Form.antt, `good_form`. */
enum {
    LAGUMTAY_QUEUE_MAX_M = 8,
    LAGUMTAY_QUEUE_MIN_BASE = 2,
    LAGUMTAY_QUEUE_MAX_BASE = 256,
    LAGUMTAY_QUEUE_MAX_N = 256,
    LAGUMTAY_QUEUE_MAX_PLACES = 64
};

/* The kinds of either side's state: idle, or with an act, a sending or a receiving, that is not finished. */
enum lagumtay_queue_kind { LAGUMTAY_QUEUE_IDLE = 0, LAGUMTAY_QUEUE_ACTS = 1 };

/* The bytes of a queue; the steps of a sending or a receiving. Constants if the arguments are, each of which is
 * evaluated once. */
#define LAGUMTAY_QUEUE_LEN(m, places, n) (2 * (size_t)(m) + (size_t)(places) * (size_t)(n))
#define LAGUMTAY_QUEUE_STEPS(m, n) (2 * (size_t)(m) + (size_t)(n))

/* The numbers of a queue but for the m bases, which are lent beside it: parcels of n bytes, so many places for them.
 * The constants above have the ranges. The queue's bytes are sent (m digits), received (m digits), and the places (n
 * bytes each), 2m + places * n in all. Both numbers have the same bases, and their leftmost digit counts most; they
 * tell how many parcels were sent and received. Parcel number i, from 0, goes to place i mod places.
 * crates/queue/specs/Form.antt, `good_form`. */
typedef struct {
    size_t n;
    size_t places;
} lagumtay_queue_format;

/* The sender's state. kind 0: idle, and all else is zero; 1: a sending of the lent record at index, whose number is
 * serial. Steps are those taken of it, of 2m + n: m gather the digits of received, left to right; n put the record's
 * bytes in; m write serial + 1 into sent, right to left. Digits gathered stand from digits[0] on, until the last of
 * them is; those not gathered are zero.
 * crates/queue/specs/State.antt; Valid.antt, `valid_sender`. */
typedef struct {
    uint64_t serial;
    size_t steps;
    size_t kind;
    uint8_t digits[8];
    size_t index;
} lagumtay_queue_sender;

/* The receiver's state: as the sender's. Of a receiving m steps gather the digits of sent, n copy a parcel's bytes into
 * the buffer, m write serial + 1 into received.
 * crates/queue/specs/State.antt; Valid.antt, `valid_receiver`. */
typedef struct {
    uint64_t serial;
    size_t steps;
    size_t kind;
    uint8_t digits[8];
} lagumtay_queue_receiver;

/* The refusals, by the same numbers as those of a page. Checks go 1, 2, 3, 8, 6 or 7, 9, and at a gathering's last
 * digit 3 (the sender's), 13, 14; the first that applies is answered. */
enum lagumtay_queue_refusal {
    LAGUMTAY_QUEUE_OK = 0,
    LAGUMTAY_QUEUE_BAD_FORMAT = 1,        /* a number of the format is outside its range */
    LAGUMTAY_QUEUE_WRONG_LENGTH = 2,      /* the queue's bytes are not 2m + places * n; the records are no multiple of
                                             n; the buffer has not n bytes */
    LAGUMTAY_QUEUE_INVALID_STATE = 3,     /* a digit at or above its base, or a state of the calling side that no steps
                                             could hold; a sending gathered more received than sent */
    LAGUMTAY_QUEUE_BUSY = 6,              /* this side has an act unfinished */
    LAGUMTAY_QUEUE_NOTHING_PENDING = 7,   /* a step with none to do; a cancel of nothing, or after a byte was moved */
    LAGUMTAY_QUEUE_NO_SUCH = 8,           /* a record beyond the last */
    LAGUMTAY_QUEUE_SERIALS_EXHAUSTED = 9, /* sent stands at its top number */
    LAGUMTAY_QUEUE_FULL = 13,             /* the sending's serial is `places` or more above the number gathered */
    LAGUMTAY_QUEUE_EMPTY = 14             /* the number gathered does not exceed the receiving's serial */
};

/* Open a queue: both numbers 0, all places zero, both sides idle. What was lent before does not matter. It checks 1
 * and 2 only, and is lent no buffer.
 * crates/queue/specs/Calls.antt, `open_queue`. */
uint8_t lagumtay_queue_open(const lagumtay_queue_format *format, const uint16_t *bases, size_t m, uint8_t *queue,
                            size_t queue_len, lagumtay_queue_sender *sender, lagumtay_queue_receiver *receiver);

/* THE SENDER'S CALLS. Each is lent the records, n bytes each; there may be none. Calls may bring new ones while no
 * sending is pending; while one is (kind 1), the record at its index stays the one that was announced. Of the receiver
 * they know only the number on the queue. */

/* Begin to send the record at this index. Its number is fixed: that of sent. Refusals 1, 2, 3, 8, 6 and 9.
 * crates/queue/specs/Sender.antt, `send_begin`. */
uint8_t lagumtay_queue_send_begin(const lagumtay_queue_format *format, const uint16_t *bases, size_t m,
                                  const uint8_t *queue, size_t queue_len, lagumtay_queue_sender *sender,
                                  const uint8_t *records, size_t records_len, size_t index);

/* The next step of the sending. The n-th byte puts the parcel in; after the last digit the sender is idle. Refusals 1,
 * 2, 3 and 7, and with the gathering's last digit 3 or 13: then that step can be taken again, which reads only this
 * digit anew, or the sending cancelled. If received was carried over during the gathering, the other digits stay old,
 * and it may be refused for ever: so cancel, and begin afresh.
 * crates/queue/specs/Sender.antt, `send_step`. */
uint8_t lagumtay_queue_send_step(const lagumtay_queue_format *format, const uint16_t *bases, size_t m, uint8_t *queue,
                                 size_t queue_len, lagumtay_queue_sender *sender, const uint8_t *records,
                                 size_t records_len);

/* Abandon the sending, while no byte was moved: the sender is idle then. Refusals 1, 2, 3 and 7.
 * crates/queue/specs/Sender.antt, `send_cancel`. */
uint8_t lagumtay_queue_send_cancel(const lagumtay_queue_format *format, const uint16_t *bases, size_t m,
                                   const uint8_t *queue, size_t queue_len, lagumtay_queue_sender *sender,
                                   const uint8_t *records, size_t records_len);

/* THE RECEIVER'S CALLS. Each is lent a buffer of n bytes. It holds the parcel, whole, from the step that copied its
 * last byte until the next receiving moves a byte; it must be the same one throughout a receiving. Of the sender they
 * know only the number on the queue. */

/* Begin to receive the parcel whose number is that of received. Refusals 1, 2, 3 and 6.
 * crates/queue/specs/Receiver.antt, `receive_begin`. */
uint8_t lagumtay_queue_receive_begin(const lagumtay_queue_format *format, const uint16_t *bases, size_t m,
                                     const uint8_t *queue, size_t queue_len, lagumtay_queue_receiver *receiver,
                                     const uint8_t *buffer, size_t buffer_len);

/* The next step of the receiving. The n-th byte copies the parcel out; after the last digit the receiver is idle.
 * Refusals 1, 2, 3 and 7, and with the gathering's last digit 14: then that step can be taken again, which reads only
 * this digit anew, or the receiving cancelled.
 * crates/queue/specs/Receiver.antt, `receive_step`. */
uint8_t lagumtay_queue_receive_step(const lagumtay_queue_format *format, const uint16_t *bases, size_t m,
                                    uint8_t *queue, size_t queue_len, lagumtay_queue_receiver *receiver,
                                    uint8_t *buffer, size_t buffer_len);

/* Abandon the receiving, while no byte was moved: the receiver is idle then. Refusals 1, 2, 3 and 7.
 * crates/queue/specs/Receiver.antt, `receive_cancel`. */
uint8_t lagumtay_queue_receive_cancel(const lagumtay_queue_format *format, const uint16_t *bases, size_t m,
                                      const uint8_t *queue, size_t queue_len, lagumtay_queue_receiver *receiver,
                                      const uint8_t *buffer, size_t buffer_len);

/* A HELPER, which is C and not proved: a refusal as text, for any number. */
static inline const char *lagumtay_queue_refusal_text(uint8_t refusal) {
    switch (refusal) {
    case LAGUMTAY_QUEUE_OK: return "not refused";
    case LAGUMTAY_QUEUE_BAD_FORMAT: return "a number of the format is outside its range";
    case LAGUMTAY_QUEUE_WRONG_LENGTH: return "a length differs from the format, or the records are no multiple of n";
    case LAGUMTAY_QUEUE_INVALID_STATE: return "a digit at or above its base, or a state that no steps could hold";
    case LAGUMTAY_QUEUE_BUSY: return "this side has an act unfinished";
    case LAGUMTAY_QUEUE_NOTHING_PENDING: return "a step or cancel with none to do, or a cancel after a byte was moved";
    case LAGUMTAY_QUEUE_NO_SUCH: return "a record beyond the last";
    case LAGUMTAY_QUEUE_SERIALS_EXHAUSTED: return "the number sent stands at its top";
    case LAGUMTAY_QUEUE_FULL: return "the queue is full";
    case LAGUMTAY_QUEUE_EMPTY: return "the queue is empty";
    default: return "no number of a refusal";
    }
}

/* WHAT IS PROMISED over all calls from an accepted opening, the steps of both sides mixed freely, with the same format,
 * nobody else writing what is lent, no two calls at once, and records and buffer as said above. A parcel counts as put
 * in, or as copied out, with its last byte.
 * crates/queue/specs/Demand.antt, `GeneralClaim`; crates/queue/specs/Lending.antt, `Continues`. */

/* The parcels copied out are the first of those put in, in order, byte for byte; and those put in less those copied out
 * stay between 0 and `places`. The k-th sending and the k-th receiving that end have number k - 1. */

/* A gathering during which the other side takes no step, and has no act unfinished that is beyond its own gathering, is
 * refused by 13 only if `places` more parcels are put in than copied out, and by 14 only if as many. A gathering that
 * meets the other side may be refused though there is room, or a parcel: it is made afresh. */

/* No call is refused by 3 while a pending sending finds a record at its index: such an answer says that something that
 * was lent has been written by somebody else. */

/* The archive was built with these sizes and offsets. */
LAGUMTAY_ASSERT(sizeof(lagumtay_queue_format) == 16);
LAGUMTAY_ASSERT_AT(lagumtay_queue_format, n, 0);
LAGUMTAY_ASSERT_AT(lagumtay_queue_format, places, 8);
LAGUMTAY_ASSERT(sizeof(lagumtay_queue_sender) == 40);
LAGUMTAY_ASSERT_AT(lagumtay_queue_sender, serial, 0);
LAGUMTAY_ASSERT_AT(lagumtay_queue_sender, steps, 8);
LAGUMTAY_ASSERT_AT(lagumtay_queue_sender, kind, 16);
LAGUMTAY_ASSERT_AT(lagumtay_queue_sender, digits, 24);
LAGUMTAY_ASSERT_AT(lagumtay_queue_sender, index, 32);
LAGUMTAY_ASSERT(sizeof(lagumtay_queue_receiver) == 32);
LAGUMTAY_ASSERT_AT(lagumtay_queue_receiver, serial, 0);
LAGUMTAY_ASSERT_AT(lagumtay_queue_receiver, steps, 8);
LAGUMTAY_ASSERT_AT(lagumtay_queue_receiver, kind, 16);
LAGUMTAY_ASSERT_AT(lagumtay_queue_receiver, digits, 24);

#ifdef __cplusplus
}
#endif

#endif
