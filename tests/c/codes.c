/* A small call for each code of the header's table, answers worked out by hand from the contract. tests/c/run makes
 * codes.h from the table. No text gives refusal 8, for the laws that the reader takes are accepted. */
#include <inttypes.h>
#include <stdio.h>
#include <string.h>
#include "codes.h"
#include "huntyghai.h"

/* p stays (laws 0 and 1) and gives q (law 2). Two atoms a time, four in all. The rules: law 2 at 0 and at 1, 4 words
 * each; laws 0 and 1, 5 words each; two of 4 words for each of p and q at time 0. That is 8 rules and 34 words. */
#define LAWS "horizon=1\nfluent=p\nfluent=q\ninertial=p\ninertial=-p\nstatic=q\nif=p\nend=\n"
#define STAYS "state=p,q\nact=\nstate=p,q\nend=\n"
#define FLUENT "horizon=1\nfluent=p\n"
#define TEXT(text) (const uint8_t *)(text), strlen(text) /* lent by its start and its length */

static uint16_t table[34];
static uint8_t values[4];
static const uint8_t zeros[65536] = {0};
static int wrong;

static void expect(uint64_t code, uint64_t value, uint64_t answer)
{
    if (answer != code + 256 * value) {
        wrong = 1;
        fprintf(stderr, "%" PRIu64 ", and not %" PRIu64 " + 256 * %" PRIu64 "\n", answer, code, value);
    }
}

/* The history check with digits for the values of p and q at time 0, then at time 1. */
static uint64_t checked(const char *digits)
{
    for (size_t atom = 0; atom < 4; atom++)
        values[atom] = (uint8_t)(digits[atom] - '0');
    return huntyghai_check_history(TEXT(LAWS), values, 4, table, 34);
}

static void texts(void)
{
    expect(1, 0, huntyghai_translate(zeros, 65536, table, 34));
    expect(2, 3, huntyghai_translate(TEXT(FLUENT "end="), table, 34));
    expect(3, 1, huntyghai_translate(TEXT("horizon=31\n"), table, 34));
    expect(4, 3, huntyghai_translate(TEXT(FLUENT "action=P\n"), table, 34));
    expect(5, 3, huntyghai_translate(TEXT(FLUENT "nonexecutable=p,p,p,p,p,p,p\n"), table, 34));
    expect(6, 3, huntyghai_translate(TEXT(FLUENT "default=q\n"), table, 34));
    expect(9, 34, huntyghai_translate(TEXT(LAWS), table, 33));
    expect(WRITTEN, 4 + 65536 * (8 + UINT64_C(65536) * 34), huntyghai_translate(TEXT(LAWS), table, 34));
    expect(7, 5, huntyghai_read_history(TEXT(LAWS), TEXT(STAYS "\n"), values, 4));
    expect(READ, 0, huntyghai_read_history(TEXT(LAWS), TEXT(STAYS), values, 4));
    expect(PASSES, 0, checked("1111"));
    expect(MISSING, 1, checked("1031"));
    expect(CLASH, 2, checked("1130"));
    expect(BROKEN, 1, checked("2212"));
    expect(UNFOUNDED, 7, checked("2222"));
    expect(PATH, 0, huntyghai_causal_reading(TEXT(LAWS STAYS)));
    expect(CONTRADICTED, 65536 + 2, huntyghai_causal_reading(TEXT(LAWS "state=-p,-q\nact=\nstate=p,-q\nend=\n")));
    expect(UNCAUSED, 65536 + 1, huntyghai_causal_reading(TEXT(LAWS "state=-p,-q\nact=\nstate=-p,-q\nend=\n")));
    expect(11, 3, huntyghai_causal_reading(TEXT(LAWS "state=p,q\nact=\nstate=p\nend=\n")));
}

int main(void)
{
    /* The fact p, "p if p", that p must not be, and the start of a rule with a part. */
    const uint16_t rules[] = {0, 0, 0, 0, 0, 1, 0, 65535, 0, 1, 0, 0, 0, 1}, levels[] = {0, 0};
    const uint8_t is_true = 1;
    texts();
    expect(10, 1025, huntyghai_check_set(zeros, 1025, rules, 3));
    expect(12, 11, huntyghai_check_set(&is_true, 1, rules, 14));
    expect(UNFOUNDED, 0, huntyghai_check_set(&is_true, 1, rules + 3, 4));
    expect(HOLDS, 0, huntyghai_check_completion(&is_true, 1, rules + 3, 4));
    expect(FAILS, 65535, huntyghai_check_completion(&is_true, 1, rules, 11));
    expect(13, 1, huntyghai_check_by_levels(&is_true, 1, rules, 7, levels, 2));
    /* A length of 0 may come with any pointer. An empty text lacks its first line; its refusal has 18 bytes. */
    expect(18, 0, huntyghai_report(NULL, 0, NULL, 0));
    expect(PASSES, 0, huntyghai_check_set(NULL, 0, NULL, 0));
    expect(HOLDS, 0, huntyghai_check_completion(NULL, 0, NULL, 0));
    expect(HOLDS, 0, huntyghai_check_by_levels(NULL, 0, NULL, 0, NULL, 0));
    expect(13, 65535, huntyghai_check_by_levels(&is_true, 1, NULL, 0, NULL, 0));
    expect(2, 1, huntyghai_translate(NULL, 0, NULL, 0));
    expect(9, 34, huntyghai_translate(TEXT(LAWS), NULL, 0));
    expect(2, 1, huntyghai_read_history(NULL, 0, NULL, 0, NULL, 0));
    expect(10, 0, huntyghai_read_history(TEXT(LAWS), NULL, 0, NULL, 0));
    expect(2, 1, huntyghai_check_history(NULL, 0, NULL, 0, NULL, 0));
    expect(10, 0, huntyghai_check_history(TEXT(LAWS), NULL, 0, table, 34));
    expect(2, 1, huntyghai_causal_reading(NULL, 0));
    return wrong;
}
