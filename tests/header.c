/* The header and the library agree: the structs lie in memory as they are declared, calls through the
 * header give the exact numbers and words of examples (some of RULES Sheet), each reply is met under
 * its name, and each limit is where its name says. Modulus 101 unless said. Each array that is lent to
 * be written has a canary word behind it. */
#include <inttypes.h>
#include <stdio.h>
#include <stdlib.h>
#include <string.h>

#include "garantepo.h"

_Static_assert(sizeof(size_t) == 8, "a slice's length is one word");
_Static_assert(sizeof(garantepo_report) == 40, "report");
_Static_assert(offsetof(garantepo_report, operand) == 8, "report.operand");
_Static_assert(offsetof(garantepo_report, index) == 16, "report.index");
_Static_assert(offsetof(garantepo_report, first) == 24, "report.first");
_Static_assert(offsetof(garantepo_report, second) == 32, "report.second");
_Static_assert(sizeof(garantepo_value) == 16, "value");
_Static_assert(offsetof(garantepo_value, value) == 8, "value.value");
_Static_assert(sizeof(garantepo_balance) == 16, "balance");
_Static_assert(offsetof(garantepo_balance, value) == 8, "balance.value");
_Static_assert(sizeof(garantepo_exponents) == 40, "exponents");
_Static_assert(offsetof(garantepo_exponents, exponents) == 8, "exponents.exponents");
_Static_assert(sizeof(garantepo_profile) == 48, "profile");
_Static_assert(offsetof(garantepo_profile, exponents) == 8, "profile.exponents");
_Static_assert(offsetof(garantepo_profile, total) == 40, "profile.total");
_Static_assert(sizeof(garantepo_profiled) == 88, "profiled");
_Static_assert(offsetof(garantepo_profiled, profile) == 40, "profiled.profile");
_Static_assert(sizeof(garantepo_part) == 16, "part");
_Static_assert(offsetof(garantepo_part, end) == 8, "part.end");

#define CANARY UINT64_C(0xc0ffee00c0ffee00)
#define DIRTY UINT64_C(0x1234567812345678)
#define M(x, y, z, t) ((uint64_t)(x) << 48 | (uint64_t)(y) << 32 | (uint64_t)(z) << 16 | (uint64_t)(t))

static unsigned done_count, failed_count;

static void expect(int holds, int line, const char *what)
{
    done_count++;
    if (!holds) {
        failed_count++;
        printf("tests/header.c:%d: failed: %s\n", line, what);
    }
}

#define EXPECT(fact) expect((fact), __LINE__, #fact)

static int is_done(garantepo_report r, uint64_t first, uint64_t second)
{
    return r.number == GARANTEPO_DONE && r.operand == 0 && r.index == 0 && r.first == first
        && r.second == second;
}

/* Any other reply than 0: its counts are 0. */
static int is_reply(garantepo_report r, uint64_t number, uint64_t operand, uint64_t index)
{
    return r.number == number && r.operand == operand && r.index == index && r.first == 0
        && r.second == 0;
}

/* The array's words, and its canary. */
static int is_words(const uint64_t *words, const uint64_t *expected, size_t count)
{
    return memcmp(words, expected, count * sizeof *words) == 0 && words[count] == CANARY;
}

static int all(const uint64_t *words, uint64_t expected, size_t count)
{
    for (size_t i = 0; i < count; i++)
        if (words[i] != expected)
            return 0;
    return words[count] == CANARY;
}

/* What a host leaves in an array before it lends it: words that are not zero, and the canary. */
static void dirty(uint64_t *words, size_t count)
{
    for (size_t i = 0; i < count; i++)
        words[i] = DIRTY;
    words[count] = CANARY;
}

/* RULES Sheet 1: the factors, and their product. */
static const uint64_t left[] = { M(4, 0, 0, 0), 2, M(3, 0, 0, 0), 3, M(1, 0, 0, 0), 4 };
static const uint64_t right[] = { M(5, 0, 0, 0), 1, M(3, 0, 0, 0), 5, M(0, 0, 0, 0), 7 };
static const uint64_t both[] = {
    M(9, 0, 0, 0), 2, M(8, 0, 0, 0), 3, M(7, 0, 0, 0), 10, M(6, 0, 0, 0), 19, M(4, 0, 0, 0), 34,
    M(3, 0, 0, 0), 21, M(1, 0, 0, 0), 28,
};
/* Four terms with different largest exponents. */
static const uint64_t mixed[] = { M(7, 0, 1, 0), 1, M(2, 5, 0, 3), 100, M(2, 1, 11, 0), 50, M(0, 0, 0, 2), 9 };

static void check_profile_run(void)
{
    EXPECT(is_done(garantepo_check(101, mixed, 8), 4, 0));
    EXPECT(is_reply(garantepo_check(100, mixed, 8), GARANTEPO_BAD_MODULUS, 0, 0));
    EXPECT(is_reply(garantepo_check(101, mixed, 7), GARANTEPO_ODD_LENGTH, 1, 0));
    EXPECT(is_reply(garantepo_check(53, mixed, 8), GARANTEPO_BAD_COEFFICIENT, 1, 1));
    EXPECT(is_done(garantepo_check(101, mixed, 0), 0, 0));
    const uint64_t guard[] = { M(1, 0, 0, 0), 1, 0x8000, 1 }, equal[] = { M(1, 0, 0, 0), 1, M(1, 0, 0, 0), 1 };
    EXPECT(is_reply(garantepo_check(101, guard, 4), GARANTEPO_BAD_MONOMIAL, 1, 1));
    EXPECT(is_reply(garantepo_check(101, equal, 4), GARANTEPO_BAD_ORDER, 1, 1));

    garantepo_profiled p = garantepo_profile_of(101, mixed, 8);
    const uint64_t largest[] = { 7, 5, 11, 3 };
    EXPECT(is_done(p.report, 4, 0));
    EXPECT(p.profile.terms == 4);
    EXPECT(memcmp(p.profile.exponents, largest, sizeof largest) == 0);
    EXPECT(p.profile.total == 14);
    p = garantepo_profile_of(53, mixed, 8);
    const garantepo_profile none = { 0, { 0, 0, 0, 0 }, 0 };
    EXPECT(is_reply(p.report, GARANTEPO_BAD_COEFFICIENT, 1, 1));
    EXPECT(memcmp(&p.profile, &none, sizeof none) == 0);

    garantepo_part part = garantepo_run(mixed, 8, 2);
    EXPECT(part.start == 2 && part.end == 6);
    part = garantepo_run(mixed, 8, 1);
    EXPECT(part.start == 0 && part.end == 0);
}

static void sums(void)
{
    const uint64_t sum[] = {
        M(5, 0, 0, 0), 1, M(4, 0, 0, 0), 2, M(3, 0, 0, 0), 8, M(1, 0, 0, 0), 4, 0, 7, 0, 0,
    };
    const uint64_t difference[] = {
        M(5, 0, 0, 0), 100, M(4, 0, 0, 0), 2, M(3, 0, 0, 0), 99, M(1, 0, 0, 0), 4, 0, 94, 0, 0,
    };
    uint64_t out[13];
    dirty(out, 12);
    EXPECT(is_done(garantepo_sum(101, left, 6, right, 6, out, 12), 5, 0));
    EXPECT(is_words(out, sum, 12));
    dirty(out, 12);
    EXPECT(is_done(garantepo_difference(101, left, 6, right, 6, out, 12), 5, 0));
    EXPECT(is_words(out, difference, 12));
    /* one slice lent as both inputs */
    dirty(out, 12);
    EXPECT(is_done(garantepo_difference(101, left, 6, left, 6, out, 12), 0, 0));
    EXPECT(all(out, 0, 12));
    dirty(out, 8);
    EXPECT(is_reply(garantepo_sum(101, left, 6, right, 6, out, 8), GARANTEPO_NO_ROOM, 0, 0));
    EXPECT(all(out, 0, 8));
    dirty(out, 11);
    EXPECT(is_reply(garantepo_difference(101, left, 6, right, 6, out, 11), GARANTEPO_ODD_LENGTH, 3, 0));
    EXPECT(all(out, DIRTY, 11));
}

static void product(void)
{
    uint64_t out[15], work[13];
    dirty(out, 14), dirty(work, 12);
    EXPECT(is_done(garantepo_product(101, left, 6, right, 6, out, 14, work, 12), 7, 0));
    EXPECT(is_words(out, both, 14));
    EXPECT(all(work, 0, 12));
    dirty(out, 12), dirty(work, 12);
    EXPECT(is_reply(garantepo_product(101, left, 6, right, 6, out, 12, work, 12), GARANTEPO_NO_ROOM, 0, 0));
    EXPECT(all(out, 0, 12));
    EXPECT(all(work, 0, 12));
    dirty(out, 14), dirty(work, 11);
    EXPECT(is_reply(garantepo_product(101, left, 6, right, 6, out, 14, work, 11), GARANTEPO_SHORT_WORK, 5, 0));
    EXPECT(all(out, DIRTY, 14));
    EXPECT(all(work, DIRTY, 11));
    const uint64_t top[] = { M(32767, 0, 0, 0), 1 }, x[] = { M(1, 0, 0, 0), 1 };
    dirty(out, 2), dirty(work, 4);
    EXPECT(is_reply(garantepo_product(101, top, 2, x, 2, out, 2, work, 4), GARANTEPO_BIG_EXPONENT, 0, 0));
    EXPECT(all(out, 0, 2));
}

static void division(void)
{
    /* RULES Sheet 3: the counts of quotient and remainder differ */
    const uint64_t f[] = { M(2, 1, 0, 0), 1, M(1, 2, 0, 0), 1, M(0, 2, 0, 0), 1 };
    const uint64_t g[] = { M(1, 1, 0, 0), 1, 0, 100 };
    const uint64_t quotient[] = { UINT64_C(0x0001000000000000), 1, UINT64_C(0x0000000100000000), 1, 0, 0 };
    const uint64_t remainder[] = { M(1, 0, 0, 0), 1, M(0, 2, 0, 0), 1, M(0, 1, 0, 0), 1, 0, 0 };
    uint64_t q[7], r[9], work[13];
    dirty(q, 6), dirty(r, 8), dirty(work, 12);
    EXPECT(is_done(garantepo_divide(101, f, 6, g, 4, q, 6, r, 8, work, 12), 2, 3));
    EXPECT(is_words(q, quotient, 6));
    EXPECT(is_words(r, remainder, 8));
    EXPECT(all(work, 0, 12));
    dirty(q, 6), dirty(r, 4), dirty(work, 12);
    EXPECT(is_reply(garantepo_divide(101, f, 6, g, 4, q, 6, r, 4, work, 12), GARANTEPO_NO_REMAINDER_ROOM, 0, 0));
    EXPECT(all(q, 0, 6) && all(r, 0, 4) && all(work, 0, 12));
    dirty(q, 6), dirty(r, 8), dirty(work, 12);
    EXPECT(is_reply(garantepo_divide(101, f, 6, g, 0, q, 6, r, 8, work, 12), GARANTEPO_ZERO_DIVISOR, 2, 0));
    EXPECT(all(q, DIRTY, 6) && all(r, DIRTY, 8) && all(work, DIRTY, 12));
    EXPECT(is_reply(garantepo_divide(101, f, 6, g, 4, q, 6, r, 7, work, 12), GARANTEPO_ODD_LENGTH, 4, 0));

    dirty(q, 6), dirty(work, 12);
    EXPECT(is_done(garantepo_divides(101, both, 14, left, 6, q, 6, work, 12), 3, 0));
    EXPECT(is_words(q, right, 6));
    EXPECT(all(work, 0, 12));
    dirty(q, 4), dirty(work, 8);
    EXPECT(is_reply(garantepo_divides(101, both, 14, left, 6, q, 4, work, 8), GARANTEPO_NO_ROOM, 0, 0));
    EXPECT(all(q, 0, 4) && all(work, 0, 8));
    dirty(q, 6), dirty(work, 12);
    EXPECT(is_reply(garantepo_divides(101, f, 6, g, 4, q, 6, work, 12), GARANTEPO_NOT_DIVISIBLE, 0, 0));
    EXPECT(all(q, 0, 6) && all(work, 0, 12));
}

static int is_value(garantepo_value v, uint64_t number, uint64_t value)
{
    return v.number == number && v.value == value;
}

static int is_balance(garantepo_balance b, uint64_t number, int32_t value)
{
    return b.number == number && b.value == value;
}

static void field(void)
{
    EXPECT(is_value(garantepo_field_sum(101, 60, 70), GARANTEPO_DONE, 29));
    EXPECT(is_value(garantepo_field_sum(101, 60, 101), GARANTEPO_BAD_COEFFICIENT, 0));
    EXPECT(is_value(garantepo_field_product(101, 60, 70), GARANTEPO_DONE, 59));
    EXPECT(is_value(garantepo_field_product(4, 1, 1), GARANTEPO_BAD_MODULUS, 0));
    EXPECT(is_value(garantepo_field_inverse(101, 2), GARANTEPO_DONE, 51));
    EXPECT(is_value(garantepo_field_inverse(101, 0), GARANTEPO_BAD_COEFFICIENT, 0));
    EXPECT(is_value(garantepo_residue(101, -1), GARANTEPO_DONE, 100));
    EXPECT(is_value(garantepo_residue(2147483647, INT32_MIN), GARANTEPO_DONE, 2147483646));
    EXPECT(is_value(garantepo_residue(1, 5), GARANTEPO_BAD_MODULUS, 0));
    EXPECT(is_balance(garantepo_balanced(101, 50), GARANTEPO_DONE, 50));
    EXPECT(is_balance(garantepo_balanced(101, 51), GARANTEPO_DONE, -50));
    EXPECT(is_balance(garantepo_balanced(101, 101), GARANTEPO_BAD_COEFFICIENT, 0));
}

static void monomials(void)
{
    const uint64_t exponents[] = { 1, 2, 3, 32767 }, zeros[] = { 0, 0, 0, 0 };
    EXPECT(is_value(garantepo_pack(1, 2, 3, 32767), GARANTEPO_DONE, UINT64_C(0x0001000200037fff)));
    EXPECT(is_value(garantepo_pack(1, 2, 32768, 3), GARANTEPO_BAD_MONOMIAL, 0));
    garantepo_exponents e = garantepo_unpack(UINT64_C(0x0001000200037fff));
    EXPECT(e.number == GARANTEPO_DONE && memcmp(e.exponents, exponents, sizeof exponents) == 0);
    e = garantepo_unpack(UINT64_C(0x0001800200037fff));
    EXPECT(e.number == GARANTEPO_BAD_MONOMIAL && memcmp(e.exponents, zeros, sizeof zeros) == 0);
}

/* The limits of numbers, of an input, and of the work. */
static void limits(void)
{
    EXPECT(is_done(garantepo_check(GARANTEPO_LARGEST_MODULUS, mixed, 8), 4, 0));
    EXPECT(is_reply(garantepo_check(GARANTEPO_LARGEST_MODULUS + 1, mixed, 8), GARANTEPO_BAD_MODULUS, 0, 0));
    const uint64_t most = GARANTEPO_LARGEST_EXPONENT;
    EXPECT(is_value(garantepo_pack(most, most, most, most), GARANTEPO_DONE, M(most, most, most, most)));
    EXPECT(is_value(garantepo_pack(0, 0, 0, most + 1), GARANTEPO_BAD_MONOMIAL, 0));

    static uint64_t terms[2 * (GARANTEPO_INPUT_TERMS + 1)];
    for (uint64_t i = 0; i <= GARANTEPO_INPUT_TERMS; i++) {
        terms[2 * i] = M(GARANTEPO_INPUT_TERMS - i, 0, 0, 0);
        terms[2 * i + 1] = 1;
    }
    const size_t whole = 2 * GARANTEPO_INPUT_TERMS;
    EXPECT(is_done(garantepo_check(101, terms, whole), GARANTEPO_INPUT_TERMS, 0));
    EXPECT(is_reply(garantepo_check(101, terms, whole + 2), GARANTEPO_TOO_LONG, 1, 0));

    uint64_t q[5], work[2 * GARANTEPO_WORK_WORDS + 1];
    dirty(q, 4), dirty(work, 2 * GARANTEPO_WORK_WORDS);
    EXPECT(is_done(garantepo_divides(101, left, 6, left, 6, q, 4, work, 2 * GARANTEPO_WORK_WORDS), 1, 0));
    dirty(q, 4), dirty(work, 2 * GARANTEPO_WORK_WORDS);
    EXPECT(is_reply(garantepo_divides(101, left, 6, left, 6, q, 4, work, 2 * GARANTEPO_WORK_WORDS - 1),
                    GARANTEPO_SHORT_WORK, 5, 0));
}

/* The limits of rooms. No word of the long ones is touched: where they are not too long, the bad
 * coefficient of an input is told. */
static void room_limits(void)
{
    const uint64_t bad[] = { 0, 101 };
    const size_t whole = 2 * GARANTEPO_ROOM_TERMS, quotient = 2 * GARANTEPO_INPUT_TERMS;
    uint64_t *room = calloc(whole + 2, sizeof *room);
    uint64_t work[2] = { 0, 0 };
    EXPECT(room != NULL);
    if (room == NULL)
        return;
    EXPECT(is_reply(garantepo_sum(101, bad, 2, left, 6, room, whole), GARANTEPO_BAD_COEFFICIENT, 1, 0));
    EXPECT(is_reply(garantepo_sum(101, bad, 2, left, 6, room, whole + 2), GARANTEPO_TOO_LONG, 3, 0));
    EXPECT(is_reply(garantepo_divides(101, bad, 2, left, 6, room, quotient, work, 2),
                    GARANTEPO_BAD_COEFFICIENT, 1, 0));
    EXPECT(is_reply(garantepo_divides(101, bad, 2, left, 6, room, quotient + 2, work, 2),
                    GARANTEPO_TOO_LONG, 3, 0));
    free(room);
}

int main(void)
{
    check_profile_run();
    sums();
    product();
    division();
    field();
    monomials();
    limits();
    room_limits();
    printf("header: %u facts, %u failed\n", done_count, failed_count);
    return failed_count != 0;
}
