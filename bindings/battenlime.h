/* Battenlime from C: quadrature rules with whole-number weights, and the
 * session, the weights, the replies and the verdict that they give.
 *
 * Link with libbattenlime.a (`bash bindings/library` makes it).
 *
 * For every call:
 * - Any numbers and any bytes may be passed. What cannot be used is refused by
 *   a number, with the layer and the place that docs/refusals.md lists.
 * - A pointer goes with the number of elements behind it. It must point to that
 *   many, and must not be NULL, even where the number is 0.
 * - A buffer that a call writes must not overlap anything else that is passed.
 * - Elements of a buffer that the call does not speak of stay as they were; a
 *   buffer that is too short stays as it was altogether (refusal 23, whose place
 *   is the number of elements needed).
 * - Nothing is allocated and nothing is kept between calls, so calls from
 *   several threads do not disturb each other. A call needs up to 300 KB of stack.
 */
#ifndef BATTENLIME_H
#define BATTENLIME_H

#include <stddef.h>
#include <stdint.h>

#ifdef __cplusplus
extern "C" {
#endif

/* Layers of the library, where a refusal can come from. */
enum {
    BATTENLIME_RULE = 1,
    BATTENLIME_LAYER = 2,
    BATTENLIME_SOURCE = 3,
    BATTENLIME_RUN = 4,
    BATTENLIME_OTHER = 5, /* the second of two runs */
    BATTENLIME_ORDER = 6,
    BATTENLIME_OUTPUT = 7
};

/* A refusal; all three are 0 where nothing was refused. */
struct battenlime_refusal {
    uint32_t number; /* 1 to 24 */
    uint32_t layer;  /* BATTENLIME_RULE to BATTENLIME_OUTPUT */
    uint64_t place;
};

/* What became of a line of text. */
struct battenlime_line {
    uint64_t len; /* bytes written, the newline included; 0 where it did not fit */
    struct battenlime_refusal refusal;
};

/* A result: value = numerator / denominator, radius = radius / denominator, and
 * the degree up to which the rule is exact. All 0, the denominator too, where
 * there is no result. */
struct battenlime_estimate {
    int64_t numerator;
    uint64_t denominator;
    int64_t radius;
    uint64_t degree;
    struct battenlime_refusal refusal;
};

/* What a rule tells; all 0 where it is refused, by 23 too. */
struct battenlime_rule {
    uint64_t span; /* the last station */
    uint64_t denominator;
    uint64_t degree;
    uint64_t ceiling;   /* the absolute weights sum to at most this */
    uint32_t symmetric; /* 1 or 0 */
    struct battenlime_refusal refusal;
};

/* Whether two results can be of one load. */
enum {
    BATTENLIME_NONE = 0,   /* an order, a layer or a survey is refused: no two runs */
    BATTENLIME_APART = 1,  /* no number lies in both bands */
    BATTENLIME_MEET = 2,   /* some number lies in both bands */
    BATTENLIME_REFUSED = 3 /* the spans differ, or a reading is missing */
};

struct battenlime_verdict {
    uint32_t kind;                     /* BATTENLIME_NONE to BATTENLIME_REFUSED */
    struct battenlime_refusal refusal; /* of BATTENLIME_REFUSED; zeros otherwise */
};

/* A call of a run. */
enum {
    BATTENLIME_ENTER = 1,   /* enter `value` at `station` */
    BATTENLIME_STRIKE = 2,  /* strike the reading at `station` */
    BATTENLIME_DECLARE = 3, /* declare `tolerance` */
    BATTENLIME_PUBLISH = 4, /* publish the run */
    BATTENLIME_RESULT = 5   /* ask for the result, as any other number does */
};

struct battenlime_call {
    uint32_t kind; /* BATTENLIME_ENTER to BATTENLIME_RESULT */
    uint64_t station;
    int64_t value;
    uint64_t tolerance;
};

/* A session: writes one line into `out`, the result or the refusal. */
struct battenlime_line battenlime_report(const uint8_t *order, size_t order_len,
                                         const uint8_t *survey, size_t survey_len,
                                         uint8_t *out, size_t out_len);

/* The same with order and survey in one input: its first 6 bytes, and the rest.
 * An input of fewer than 6 bytes is a short order. */
struct battenlime_line battenlime_answer(const uint8_t *input, size_t input_len,
                                         uint8_t *out, size_t out_len);

/* The result of a session as numbers. */
struct battenlime_estimate battenlime_integrate(const uint8_t *order, size_t order_len,
                                                const uint8_t *survey, size_t survey_len);

/* The rule that an order asks for. Its weights, for the stations 0 to its span,
 * are written into `weights`: 1,025 places are always enough. The order and its
 * layers are checked before the room. */
struct battenlime_rule battenlime_weights(const uint8_t *order, size_t order_len,
                                          int64_t *weights, size_t weights_len);

/* A new run over the ordered rule, with the survey loaded, is given the calls in
 * their order; the reply to each is written into `replies`. A change that is
 * made is answered by zeros throughout, the result by its numbers, and a call
 * that is refused by its refusal; the calls after it go on. The return value
 * tells why there is no run (order, layers, survey) or, after these, that
 * `replies` has fewer places than there are calls; nothing is written then. */
struct battenlime_refusal battenlime_replay(const uint8_t *order, size_t order_len,
                                            const uint8_t *survey, size_t survey_len,
                                            const struct battenlime_call *calls, size_t calls_len,
                                            struct battenlime_estimate *replies, size_t replies_len);

/* The verdict on two sessions. */
struct battenlime_verdict battenlime_settle(const uint8_t *first_order, size_t first_order_len,
                                            const uint8_t *first_survey, size_t first_survey_len,
                                            const uint8_t *second_order, size_t second_order_len,
                                            const uint8_t *second_survey, size_t second_survey_len);

#ifdef __cplusplus
}
#endif

#endif
