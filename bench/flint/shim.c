/* FLINT's sum, difference, product, division and divide test by name, on the engine's records. */
#include <stddef.h>
#include <stdint.h>
#include <stdlib.h>
#include <flint/nmod_mpoly.h>

/* Two inputs and two outputs, in FLINT's own form: nothing is converted while the clock runs. */
typedef struct {
    nmod_mpoly_ctx_t ctx;
    nmod_mpoly_t input[2];
    nmod_mpoly_t output[2];
} contest;

static void read_words(contest *c, int i, const uint64_t *words, size_t len)
{
    for (size_t k = 0; k + 1 < len; k += 2) {
        uint64_t m = words[k];
        ulong e[4] = {m >> 48, m >> 32 & 0xffff, m >> 16 & 0xffff, m & 0xffff};
        nmod_mpoly_push_term_ui_ui(c->input[i], words[k + 1], e, c->ctx);
    }
}

const char *shim_version(void)
{
    return FLINT_VERSION;
}

contest *shim_contest(uint64_t p, const uint64_t *a, size_t a_len, const uint64_t *b, size_t b_len)
{
    contest *c = malloc(sizeof *c);
    nmod_mpoly_ctx_init(c->ctx, 4, ORD_LEX, p);
    for (int i = 0; i < 2; i++) {
        nmod_mpoly_init(c->input[i], c->ctx);
        nmod_mpoly_init(c->output[i], c->ctx);
    }
    read_words(c, 0, a, a_len);
    read_words(c, 1, b, b_len);
    return c;
}

void shim_sum(contest *c)
{
    nmod_mpoly_add(c->output[0], c->input[0], c->input[1], c->ctx);
}

void shim_difference(contest *c)
{
    nmod_mpoly_sub(c->output[0], c->input[0], c->input[1], c->ctx);
}

void shim_product(contest *c)
{
    nmod_mpoly_mul_johnson(c->output[0], c->input[0], c->input[1], c->ctx);
}

void shim_division(contest *c)
{
    nmod_mpoly_divrem_monagan_pearce(c->output[0], c->output[1], c->input[0], c->input[1], c->ctx);
}

int shim_test(contest *c)
{
    return nmod_mpoly_divides_monagan_pearce(c->output[0], c->input[0], c->input[1], c->ctx);
}

size_t shim_terms(contest *c, int i)
{
    return nmod_mpoly_length(c->output[i], c->ctx);
}

void shim_words(contest *c, int i, uint64_t *words)
{
    for (size_t k = 0; k < shim_terms(c, i); k++) {
        ulong e[4];
        nmod_mpoly_get_term_exp_ui(e, c->output[i], k, c->ctx);
        words[2 * k] = e[0] << 48 | e[1] << 32 | e[2] << 16 | e[3];
        words[2 * k + 1] = nmod_mpoly_get_term_coeff_ui(c->output[i], k, c->ctx);
    }
}

void shim_end(contest *c)
{
    for (int i = 0; i < 2; i++) {
        nmod_mpoly_clear(c->input[i], c->ctx);
        nmod_mpoly_clear(c->output[i], c->ctx);
    }
    nmod_mpoly_ctx_clear(c->ctx);
    free(c);
}
