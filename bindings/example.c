/* A beam load integrated from C: the report of a session, its numbers, the
 * weights behind it, a reading corrected, and two differing integrals settled. */
#include <inttypes.h>
#include <stdio.h>

#include "battenlime.h"

/* Trapezoid, refined once, stretch 1, 2 panels. */
static const uint8_t order[] = {1, 1, 0, 1, 0, 2};

/* Five readings of x^3 at the stations 0 to 4, tolerance 1. */
static const uint8_t cube[] = {0, 5, 0, 0, 0, 1, 0, 0, 0, 1, 0, 2, 0,  3, 0, 4, 0, 0,
                               0, 0, 0, 0, 0, 1, 0, 0, 0, 8, 0, 0, 0, 27, 0, 0, 0, 64};

/* Trapezoid in 2 panels, and Simpson's rule. */
static const uint8_t trapezoids[] = {1, 0, 0, 1, 0, 2};
static const uint8_t simpson[] = {2, 0, 0, 1, 0, 1};

/* Readings 0, 1, 4 at the stations 0 to 2, declared exact. */
static const uint8_t square[] = {0, 3, 0, 0, 0, 0, 0, 0, 0, 1, 0, 2, 0, 0, 0, 0, 0, 0, 0, 1, 0, 0, 0, 4};

static void print_reply(const char *what, struct battenlime_estimate reply)
{
    if (reply.refusal.number != 0)
        printf("%s: refused by %" PRIu32 " at %" PRIu64 "\n", what, reply.refusal.number, reply.refusal.place);
    else if (reply.denominator == 0)
        printf("%s: done\n", what);
    else
        printf("%s: %" PRId64 "/%" PRIu64 " +- %" PRId64 "/%" PRIu64 ", degree %" PRIu64 "\n", what, reply.numerator,
               reply.denominator, reply.radius, reply.denominator, reply.degree);
}

int main(void)
{
    uint8_t line[96]; /* every line fits */
    struct battenlime_line written =
        battenlime_report(order, sizeof order, cube, sizeof cube, line, sizeof line);
    printf("report: %.*s", (int)written.len, (const char *)line);

    print_reply("integral", battenlime_integrate(order, sizeof order, cube, sizeof cube));

    int64_t weights[1025];
    struct battenlime_rule rule = battenlime_weights(order, sizeof order, weights, 1025);
    printf("weights:");
    for (uint64_t station = 0; station <= rule.span; station++)
        printf(" %" PRId64, weights[station]);
    printf(" over %" PRIu64 "\n", rule.denominator);

    const struct battenlime_call calls[] = {
        {.kind = BATTENLIME_STRIKE, .station = 3},
        {.kind = BATTENLIME_RESULT},
        {.kind = BATTENLIME_ENTER, .station = 3, .value = 26},
        {.kind = BATTENLIME_RESULT},
    };
    struct battenlime_estimate replies[4];
    struct battenlime_refusal refusal =
        battenlime_replay(order, sizeof order, cube, sizeof cube, calls, 4, replies, 4);
    if (refusal.number == 0) {
        print_reply("strike 3", replies[0]);
        print_reply("result", replies[1]);
        print_reply("enter 26 at 3", replies[2]);
        print_reply("result", replies[3]);
    }

    struct battenlime_verdict verdict =
        battenlime_settle(trapezoids, sizeof trapezoids, square, sizeof square, simpson, sizeof simpson, square,
                          sizeof square);
    printf("6/2 and 8/3: %s\n", verdict.kind == BATTENLIME_APART ? "apart" : "not apart");
    return 0;
}
