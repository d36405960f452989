/* Cancels a common factor: a formula is a fraction of two polynomials, and somebody proposes a factor
 * of both. Where it divides both, the reduced fraction is printed. Otherwise the program says which of
 * two things it met: "no", the factor divides not both, or "no room", the room is too short to tell: a
 * quotient, if there is one, is longer. Taking the second for the first, or cancelling all the same,
 * would be a wrong formula.
 *
 * The three fractions below stand in the program as arrays; coefficients are modulo 101. */
#include <inttypes.h>
#include <stdio.h>

#include "garantepo.h"

#define MODULUS 101

/* The longest quotient room there is, and the work that it takes, in words. */
#define ROOM_WORDS (2 * GARANTEPO_INPUT_TERMS)
#define WORK_WORDS (GARANTEPO_WORK_WORDS * GARANTEPO_INPUT_TERMS)

/* A term of a slice: its monomial word and its coefficient. */
#define TERM(c, x, y, z, t) \
    (uint64_t)(x) << 48 | (uint64_t)(y) << 32 | (uint64_t)(z) << 16 | (uint64_t)(t), (c)

#define WORDS(a) (sizeof(a) / sizeof((a)[0]))

typedef struct { const uint64_t *words; size_t count; } polynomial;

#define POLYNOMIAL(a) ((polynomial){ (a), WORDS(a) })

/* One room for each quotient, and the work that both divisions use in turn. */
static uint64_t upper_room[ROOM_WORDS];
static uint64_t lower_room[ROOM_WORDS];
static uint64_t work[WORK_WORDS];

/* A power of one letter, with the sign of multiplication where something stands before it. */
static int print_power(char letter, uint64_t exponent, int after)
{
    if (exponent == 0)
        return after;
    printf(after ? "*%c" : "%c", letter);
    if (exponent > 1)
        printf("^%" PRIu64, exponent);
    return 1;
}

/* As 2*x^9-3*x^8+1, with balanced coefficients. */
static void print_polynomial(polynomial f)
{
    if (f.count == 0)
        printf("0");
    for (size_t i = 0; i < f.count; i += 2) {
        int32_t c = garantepo_balanced(MODULUS, f.words[i + 1]).value;
        int32_t size = c < 0 ? -c : c;
        int number = size != 1 || f.words[i] == 0;
        if (c < 0)
            printf("-");
        else if (i > 0)
            printf("+");
        if (number)
            printf("%" PRId32, size);
        garantepo_exponents e = garantepo_unpack(f.words[i]);
        for (int v = 0; v < 4; v++)
            number = print_power("xyzt"[v], e.exponents[v], number);
    }
}

/* What the divide test met, where it was not "yes". */
static void print_trouble(const char *which, garantepo_report met)
{
    switch (met.number) {
    case GARANTEPO_NOT_DIVISIBLE:
        printf("  no: the factor does not divide the %s polynomial\n", which);
        break;
    case GARANTEPO_NO_ROOM:
        printf("  no room: %" PRIu64 " terms cannot hold a quotient of the %s polynomial\n",
               GARANTEPO_INPUT_TERMS, which);
        break;
    default:
        printf("  refused: reply %" PRIu64 ", operand %" PRIu64 ", term %" PRIu64 "\n",
               met.number, met.operand, met.index);
    }
}

static garantepo_report divide_out(polynomial f, polynomial factor, uint64_t *room)
{
    return garantepo_divides(MODULUS, f.words, f.count, factor.words, factor.count,
                             room, ROOM_WORDS, work, WORK_WORDS);
}

static void cancel(polynomial upper, polynomial lower, polynomial factor)
{
    printf("(");
    print_polynomial(upper);
    printf(") / (");
    print_polynomial(lower);
    printf(") by ");
    print_polynomial(factor);
    printf("\n");
    garantepo_report first = divide_out(upper, factor, upper_room);
    if (first.number != GARANTEPO_DONE) {
        print_trouble("first", first);
        return;
    }
    garantepo_report second = divide_out(lower, factor, lower_room);
    if (second.number != GARANTEPO_DONE) {
        print_trouble("second", second);
        return;
    }
    printf("  (");
    print_polynomial((polynomial){ upper_room, 2 * first.first });
    printf(") / (");
    print_polynomial((polynomial){ lower_room, 2 * second.first });
    printf(")\n");
}

int main(void)
{
    /* both are multiples of x^5+5*x^3+7 */
    static const uint64_t product[] = {
        TERM(2, 9, 0, 0, 0), TERM(3, 8, 0, 0, 0), TERM(10, 7, 0, 0, 0), TERM(19, 6, 0, 0, 0),
        TERM(34, 4, 0, 0, 0), TERM(21, 3, 0, 0, 0), TERM(28, 1, 0, 0, 0),
    };
    static const uint64_t other_product[] = {
        TERM(1, 6, 1, 0, 0), TERM(100, 5, 0, 0, 0), TERM(5, 4, 1, 0, 0), TERM(96, 3, 0, 0, 0),
        TERM(7, 1, 1, 0, 0), TERM(94, 0, 0, 0, 0),
    };
    static const uint64_t factor[] = {
        TERM(1, 5, 0, 0, 0), TERM(5, 3, 0, 0, 0), TERM(7, 0, 0, 0, 0),
    };
    cancel(POLYNOMIAL(product), POLYNOMIAL(other_product), POLYNOMIAL(factor));

    /* only the first is a multiple of x*y-1 */
    static const uint64_t multiple[] = {
        TERM(1, 2, 1, 0, 0), TERM(1, 1, 2, 0, 0), TERM(100, 1, 0, 0, 0), TERM(100, 0, 1, 0, 0),
    };
    static const uint64_t not_multiple[] = {
        TERM(1, 2, 1, 0, 0), TERM(1, 1, 2, 0, 0), TERM(1, 0, 2, 0, 0),
    };
    static const uint64_t mixed[] = { TERM(1, 1, 1, 0, 0), TERM(100, 0, 0, 0, 0) };
    cancel(POLYNOMIAL(multiple), POLYNOMIAL(not_multiple), POLYNOMIAL(mixed));

    /* x-1 divides both, but the first quotient has 5,000 terms */
    static const uint64_t long_power[] = { TERM(1, 5000, 0, 0, 0), TERM(100, 0, 0, 0, 0) };
    static const uint64_t short_power[] = { TERM(1, 3, 0, 0, 0), TERM(100, 0, 0, 0, 0) };
    static const uint64_t root[] = { TERM(1, 1, 0, 0, 0), TERM(100, 0, 0, 0, 0) };
    cancel(POLYNOMIAL(long_power), POLYNOMIAL(short_power), POLYNOMIAL(root));
    return 0;
}
