/* Garantepo: sparse polynomials in x, y, z and t with coefficients modulo a prime p.
 *
 * Every function here is proved: for all arguments there are it gives the answer that its comment
 * tells, and leaves the words lent to it as the table of replies says. No call has a precondition
 * on what the words hold: a bad modulus, a malformed polynomial or a short array gets a numbered
 * refusal. The rules that the comments give in short are docs/RULES.md of the repository.
 *
 * Contents: polynomials, what a host has to keep to, limits, replies, answers; then the calls: check,
 * profile and run; sum, difference and product; division and divide test; single numbers modulo p;
 * monomial words.
 *
 * The library is libgarantepo.a (-lgarantepo, or what `pkg-config --cflags --libs garantepo` says),
 * for x86-64 Linux alone. The command `rt lib` in crates/garantepo proves it and writes it to the
 * folder out there; examples/cancel.c is a program that links it.
 */
#ifndef GARANTEPO_H
#define GARANTEPO_H

#include <stddef.h>
#include <stdint.h>

#ifdef __cplusplus
extern "C" {
#endif

/* ---- Polynomials --------------------------------------------------------------------------------
 *
 * A polynomial is a slice of 64-bit words, two to a term: the monomial word and behind it the
 * coefficient. The empty slice is zero.
 *   - Monomial word: bits 63 to 48 have the exponent of x, 47 to 32 of y, 31 to 16 of z, 15 to 0 of
 *     t. The highest bit of each sixteen is a guard bit and is 0.
 *   - Coefficients are 1 to p - 1.
 *   - From term to term the monomial word gets smaller, which is lexicographic order, x before y
 *     before z before t.
 *
 * ---- What a host has to keep to -----------------------------------------------------------------
 *
 *   - A slice is a pointer and its number of words (not of bytes and not of terms). The words are
 *     there: the library reads and writes up to that number.
 *   - The pointer is a multiple of 8. It is not null, not even for an empty slice, whose pointer is
 *     never read: any array will do.
 *   - The inputs of a call may be one and the same slice, and may overlap one another.
 *   - Outputs and work overlap nothing else that the call is lent, neither an input nor one another.
 *   - While a call runs nobody else writes the inputs, and nobody else reads or writes the outputs
 *     and the work.
 *   - Structs are passed as the C compiler of x86-64 Linux passes them.
 * A call touches nothing but what it is lent: no heap, no state, no file, and no word beside a
 * slice. So calls on different arrays may run at the same time. */

/* ---- Limits ---------------------------------------------------------------------------------- */

/* The modulus is a prime from 2 to this. */
#define GARANTEPO_LARGEST_MODULUS UINT64_C(2147483647)

#define GARANTEPO_LARGEST_EXPONENT UINT64_C(32767)

/* Most terms of an input, and of the room for a quotient. A term is two words. */
#define GARANTEPO_INPUT_TERMS UINT64_C(4096)

/* Most terms of the room for a sum, a difference, a product or a remainder. */
#define GARANTEPO_ROOM_TERMS UINT64_C(16777216)

/* The work array has at least so many words for each term of the factor that has fewer (product), or
 * for each term that the quotient room can hold (division, divide test). A longer one is accepted,
 * and what it holds at first does not matter. */
#define GARANTEPO_WORK_WORDS UINT64_C(4)

/* ---- Replies ------------------------------------------------------------------------------------
 *
 * A reply is given when its line says so, and not otherwise. When several refusals, 1 to 8, are due,
 * the smaller number is told, then the smaller operand, then the earlier term; the others are only
 * asked when no refusal is due. */
enum garantepo_reply {
    /* The outputs have the result's terms and zero words behind them; the work is all zero. */
    GARANTEPO_DONE = 0, /* done; the divide test: yes */

    /* Refusals: outputs and work are as they were lent. */
    GARANTEPO_BAD_MODULUS = 1,     /* p is no prime, or over its limit */
    GARANTEPO_ODD_LENGTH = 2,      /* an input or output has an odd number of words */
    GARANTEPO_TOO_LONG = 3,        /* an input or room has more terms than its limit */
    GARANTEPO_BAD_MONOMIAL = 4,    /* a guard bit is set; packing: an exponent is over its limit */
    GARANTEPO_BAD_ORDER = 5,       /* a monomial word is as large as the one before it, or larger */
    GARANTEPO_BAD_COEFFICIENT = 6, /* a coefficient is 0, or p, or larger */
    GARANTEPO_ZERO_DIVISOR = 7,    /* the divisor is zero */
    GARANTEPO_SHORT_WORK = 8,      /* the work array is too short */

    /* Outputs and work are all zero. */
    GARANTEPO_BIG_EXPONENT = 9,       /* an exponent would pass its limit, see each call */
    GARANTEPO_NO_ROOM = 10,           /* the sum, difference, product or quotient does not fit */
    GARANTEPO_NO_REMAINDER_ROOM = 11, /* the remainder does not fit */
    GARANTEPO_NOT_DIVISIBLE = 12      /* the divide test: no */
};

/* ---- Answers --------------------------------------------------------------------------------- */

/* number: the reply. operand: what 2 to 8 blame, where 1 is the first input and 2 the second, 3 the
 * first output and 4 the second, 5 the work array; 0 in every other reply. index: in 4, 5 and 6 the
 * term at fault, counted from 0, and in 5 the second of the two; else 0. first and second: in reply 0
 * the terms of the first and of the second output, 0 where there is none; else 0. */
typedef struct { uint64_t number, operand, index, first, second; } garantepo_report;

/* An answer without a report: the reply, and the value, 0 beside a refusal. */
typedef struct { uint64_t number, value; } garantepo_value;
typedef struct { uint64_t number; int32_t value; } garantepo_balance;

/* The exponents of x, y, z and t, in this order; four zeros beside a refusal. */
typedef struct { uint64_t number; uint64_t exponents[4]; } garantepo_exponents;

/* The term count, the largest exponent of x, y, z and t, and the largest total degree. */
typedef struct { uint64_t terms; uint64_t exponents[4]; uint64_t total; } garantepo_profile;
typedef struct { garantepo_report report; garantepo_profile profile; } garantepo_profiled;

/* A part of a slice lent: its words from start up to, and without, end. */
typedef struct { uint64_t start, end; } garantepo_part;

/* ---- Check, profile and run ------------------------------------------------------------------ */

/* Whether a is a polynomial modulo p: a refusal 1 to 6, or reply 0 with its term count first. */
garantepo_report garantepo_check(uint64_t p, const uint64_t *a, size_t a_len);

/* The profile of a beside its report, which is that of garantepo_check. Of the zero polynomial
 * every degree is 0; beside a refusal every number of the profile is 0. */
garantepo_profiled garantepo_profile_of(uint64_t p, const uint64_t *a, size_t a_len);

/* Where the terms with one power of x are, which stand side by side. The part is empty, at the
 * front, where that power does not occur (as none above 32,767 does) or where 2, 3, 4 or 5 is due
 * of a. Coefficients are not looked at. */
garantepo_part garantepo_run(const uint64_t *a, size_t a_len, uint64_t power);

/* ---- Sum, difference and product ------------------------------------------------------------- */

/* The sum a + b and the difference a - b. 10 when out cannot hold the terms that are left once
 * others have cancelled. */
garantepo_report garantepo_sum(uint64_t p, const uint64_t *a, size_t a_len,
                               const uint64_t *b, size_t b_len,
                               uint64_t *out, size_t out_len);
garantepo_report garantepo_difference(uint64_t p, const uint64_t *a, size_t a_len,
                                      const uint64_t *b, size_t b_len,
                                      uint64_t *out, size_t out_len);

/* The product a * b. Work: 4 words or more for each term of the factor that has fewer. A zero factor
 * makes it zero. Otherwise 9 when for some letter the largest exponents in a and in b add up to more
 * than 32,767, and otherwise 10 as for the sum. */
garantepo_report garantepo_product(uint64_t p, const uint64_t *a, size_t a_len,
                                   const uint64_t *b, size_t b_len,
                                   uint64_t *out, size_t out_len,
                                   uint64_t *work, size_t work_len);

/* ---- Division and divide test ---------------------------------------------------------------- */

/* Division of f by g with remainder. With reply 0, f = q * g + r, and the lead monomial of g divides
 * no term of r. Work: 4 words or more for each term that q has room for.
 * What remains is f at first, and its greatest term is handled until nothing remains. If the lead
 * monomial of g divides that term, then the term divided by g's lead term goes to q, and times g it
 * is taken away from what remains; before this, 9 when for some letter its exponent and the largest
 * in g add up to more than 32,767, and then 10 when q is full. Otherwise the term goes to r, or 11
 * when r is full. The first of these that comes up ends the division. */
garantepo_report garantepo_divide(uint64_t p, const uint64_t *f, size_t f_len,
                                  const uint64_t *g, size_t g_len,
                                  uint64_t *q, size_t q_len,
                                  uint64_t *r, size_t r_len,
                                  uint64_t *work, size_t work_len);

/* Whether g divides f: 0 for yes, with the quotient in q; 12 for no: no polynomial of any size times
 * g is f; 10 where q is too short to tell: a polynomial that times g is f, if there is one, has more
 * terms than q has room for. Never 9 or 11. Work: 4 words or more for each term that q has room for.
 * Zero is divided by every g that is not zero; the quotient is zero. */
garantepo_report garantepo_divides(uint64_t p, const uint64_t *f, size_t f_len,
                                   const uint64_t *g, size_t g_len,
                                   uint64_t *q, size_t q_len,
                                   uint64_t *work, size_t work_len);

/* ---- Single numbers modulo p --------------------------------------------------------------------
 *
 * 1 comes first, then 6 for an operand that is p or larger, and for the inverse of 0. */

/* The sum and the product of two residues from 0 to p - 1, and the inverse of one from 1 to p - 1. */
garantepo_value garantepo_field_sum(uint64_t p, uint64_t a, uint64_t b);
garantepo_value garantepo_field_product(uint64_t p, uint64_t a, uint64_t b);
garantepo_value garantepo_field_inverse(uint64_t p, uint64_t a);

/* The residue, from 0 to p - 1, of any signed 32-bit number; no other refusal than 1. */
garantepo_value garantepo_residue(uint64_t p, int32_t n);

/* The balanced value of a residue c: c as long as 2c does not pass p, beyond that c - p. */
garantepo_balance garantepo_balanced(uint64_t p, uint64_t c);

/* ---- Monomial words -------------------------------------------------------------------------- */

/* The monomial word of four exponents; 4 for an exponent above 32,767. */
garantepo_value garantepo_pack(uint64_t x, uint64_t y, uint64_t z, uint64_t t);

/* The four exponents of a monomial word; 4 for a set guard bit. */
garantepo_exponents garantepo_unpack(uint64_t word);

#ifdef __cplusplus
}
#endif

#endif
