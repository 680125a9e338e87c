/* The place of a policy's fault, through each call that reads a policy, from C and from C++. */
#include "oskhrein.h"

#include "check.h"

#include <stddef.h>
#include <stdint.h>

#define ALL 0x01000000u
#define NOT 0x04000000u
#define PLUS 0x05000000u
#define TOGETHER 0x08000000u

/* A word of no kind, a role and a user that two of each do not have, and the empty set. */
#define NO_KIND 0x0a000000u
#define ROLE_2 0x02000002u
#define USER_2 0x03000004u
#define EMPTY 0x03000000u

static const uint16_t ROWS[] = {1, 2};
static const uint8_t COUNTS[OSKHREIN_MAX_USERS] = {1};

/* Neither permissions nor a workflow; and permissions alone. */
static const uint8_t BYTES[16] = {0};
#define NEITHER BYTES, 0, BYTES, 0
#define ALONE BYTES, 16, BYTES, 0

static uint32_t workspace[OSKHREIN_WORKSPACE_WORDS];
static uint32_t out[OSKHREIN_MAX_WORDS];
static char text[OSKHREIN_LONGEST_TEXT];

/* The calls that read a policy, with two users and two roles, and nothing else at fault that is looked for before. */
static uint8_t opened(const uint32_t *words, size_t n_words, uint8_t *place)
{
    struct oskhrein_monitor monitor = OSKHREIN_BLANK;
    return oskhrein_open(&monitor, 2, 2, words, n_words, ROWS, 2, ALONE, place);
}

static uint8_t tested(const uint32_t *words, size_t n_words, uint8_t *place)
{
    return oskhrein_satisfies(2, 2, words, n_words, ROWS, 2, COUNTS, workspace, OSKHREIN_WORKSPACE_WORDS, place);
}

static uint8_t written(const uint32_t *words, size_t n_words, uint8_t *place)
{
    return oskhrein_normal_form(2, 2, words, n_words, out, OSKHREIN_MAX_WORDS, place);
}

static uint8_t as_text(const uint32_t *words, size_t n_words, uint8_t *place)
{
    size_t length = 0;
    return oskhrein_write_text(2, 2, words, n_words, text, OSKHREIN_LONGEST_TEXT, &length, place);
}

/* Each of them gives this number and this place for a policy, whatever the byte held, and writes nothing beside it. */
static void refused(const char *what, const uint32_t *words, size_t n_words, uint8_t code, uint8_t place)
{
    static uint8_t (*const calls[])(const uint32_t *, size_t, uint8_t *) = {opened, tested, written, as_text};
    static const uint8_t befores[] = {0xa5, 0, 31};
    for (size_t i = 0; i < 4; i++) {
        for (size_t j = 0; j < 3; j++) {
            uint8_t before = befores[j];
            uint8_t bytes[] = {before, before, before};
            uint8_t answer = calls[i](words, n_words, &bytes[1]);
            check(answer == code && bytes[0] == before && bytes[1] == place && bytes[2] == before, what);
        }
    }
}

/* A policy as it stands in a table. */
struct policy {
    const char *name;
    uint8_t place;
    uint8_t n_words;
    uint32_t words[8];
};

static void refused_each(const struct policy *policies, size_t n_policies, uint8_t code)
{
    for (size_t i = 0; i < n_policies; i++) {
        refused(policies[i].name, policies[i].words, policies[i].n_words, code, policies[i].place);
    }
}
#define REFUSED_EACH(policies, code) refused_each(policies, sizeof policies / sizeof *policies, code)

static void short_policies(void)
{
    static const struct policy bad_word[] = {
        {"no kind, first word", 0, 2, {NO_KIND, ALL}},
        {"undeclared role, middle word", 1, 3, {TOGETHER, ROLE_2, ALL}},
        {"undeclared user, last word", 2, 3, {TOGETHER, ALL, USER_2}},
        {"the first of two bad words", 1, 4, {TOGETHER, EMPTY, ROLE_2, ALL}},
        {"a bad word left over after not over plus", 3, 4, {NOT, PLUS, ALL, EMPTY}},
    };
    static const struct policy not_one_term[] = {
        {"left over, second word", 1, 2, {ALL, ALL}},
        {"left over, a middle word", 3, 5, {TOGETHER, ALL, ALL, NOT, ALL}},
        {"left over, last word", 2, 3, {NOT, ALL, ALL}},
        {"left over after not over plus", 3, 4, {NOT, PLUS, ALL, ALL}},
        {"one word runs out", 1, 1, {NOT}},
        {"three words run out", 3, 3, {TOGETHER, ALL, NOT}},
    };
    static const struct policy not_over_unit[] = {
        {"plus over together", 0, 4, {PLUS, TOGETHER, ALL, ALL}},
        {"not over not over plus", 0, 4, {NOT, NOT, PLUS, ALL}},
        {"not over plus, in the right side", 2, 5, {TOGETHER, ALL, NOT, PLUS, ALL}},
        {"after a not that stands right", 3, 6, {TOGETHER, NOT, ALL, PLUS, PLUS, ALL}},
        {"in both sides", 1, 7, {TOGETHER, PLUS, PLUS, ALL, NOT, PLUS, ALL}},
    };
    REFUSED_EACH(bad_word, OSKHREIN_WORD);
    REFUSED_EACH(not_one_term, OSKHREIN_TERM);
    REFUSED_EACH(not_over_unit, OSKHREIN_UNIT);
}

/* Together and everyone in turn. */
static void chain(uint32_t *words, size_t n_words)
{
    for (size_t i = 0; i < n_words; i++) {
        words[i] = i % 2 == 0 && i + 1 < n_words ? TOGETHER : ALL;
    }
}

static void long_policies(void)
{
    uint32_t words[OSKHREIN_MAX_WORDS + 1];

    chain(words, OSKHREIN_MAX_WORDS);
    refused("no word", words, 0, OSKHREIN_WORD_COUNT, 0);
    words[30] = EMPTY;
    refused("the last of 31 words", words, OSKHREIN_MAX_WORDS, OSKHREIN_WORD, 30);
    words[30] = NOT;
    refused("31 words run out", words, OSKHREIN_MAX_WORDS, OSKHREIN_TERM, 31);
    words[28] = ALL;
    words[30] = ALL;
    refused("left over, two of 31 words", words, OSKHREIN_MAX_WORDS, OSKHREIN_TERM, 29);
    words[28] = NOT;
    words[29] = PLUS;
    refused("not over plus as late as can be", words, OSKHREIN_MAX_WORDS, OSKHREIN_UNIT, 28);
    words[31] = NO_KIND;
    refused("32 words", words, OSKHREIN_MAX_WORDS + 1, OSKHREIN_WORD_COUNT, 0);
}

/* Every other answer leaves the byte as it was, also where the policy is at fault. */
static void untouched(uint8_t before)
{
    static const uint32_t good[] = {PLUS, ALL};
    static const uint32_t bad[] = {NOT, PLUS, NO_KIND};
    static const uint8_t nobody[OSKHREIN_MAX_USERS] = {0};
    static const uint8_t unknown[OSKHREIN_MAX_USERS] = {1, 0, 1};
    static const uint8_t thirteen[OSKHREIN_MAX_USERS] = {6, 7};
    const size_t whole = OSKHREIN_WORKSPACE_WORDS;
    struct oskhrein_monitor monitor = OSKHREIN_BLANK;
    uint8_t place = before;

    CHECK(oskhrein_open(&monitor, 2, 2, good, 2, ROWS, 2, NEITHER, &place) == OSKHREIN_ACCEPTED && place == before);
    CHECK(oskhrein_open(&monitor, 0, 2, bad, 3, ROWS, 2, NEITHER, &place) == OSKHREIN_COUNTS && place == before);
    CHECK(oskhrein_open(&monitor, 2, 2, good, 2, ROWS, 1, NEITHER, &place) == OSKHREIN_ROWS && place == before);
    CHECK(oskhrein_open(&monitor, 2, 2, good, 2, ROWS, 2, ALONE, &place) == OSKHREIN_WORKFLOW && place == before);

    CHECK(oskhrein_satisfies(2, 2, good, 2, ROWS, 2, COUNTS, workspace, whole, &place) == OSKHREIN_YES && place == before);
    CHECK(oskhrein_satisfies(2, 2, good, 2, ROWS, 2, nobody, workspace, whole, &place) == OSKHREIN_NO && place == before);
    CHECK(oskhrein_satisfies(17, 2, bad, 3, ROWS, 2, COUNTS, workspace, whole, &place) == OSKHREIN_COUNTS && place == before);
    CHECK(oskhrein_satisfies(2, 2, good, 2, ROWS, 1, COUNTS, workspace, whole, &place) == OSKHREIN_ROWS && place == before);
    CHECK(oskhrein_satisfies(2, 2, good, 2, ROWS, 2, unknown, workspace, whole, &place) == OSKHREIN_MALFORMED && place == before);
    CHECK(oskhrein_satisfies(2, 2, good, 2, ROWS, 2, thirteen, workspace, whole, &place) == OSKHREIN_FULL && place == before);
    CHECK(oskhrein_satisfies(2, 2, bad, 3, ROWS, 2, COUNTS, workspace, whole - 1, &place) == OSKHREIN_WORKSPACE && place == before);

    CHECK(oskhrein_normal_form(2, 2, good, 2, out, 2, &place) == OSKHREIN_ACCEPTED && place == before);
    CHECK(oskhrein_normal_form(2, 17, bad, 3, out, 3, &place) == OSKHREIN_COUNTS && place == before);
    CHECK(oskhrein_normal_form(2, 2, good, 2, out, 1, &place) == OSKHREIN_OUTPUT && place == before);
}

int main(void)
{
    short_policies();
    long_policies();
    untouched(0xa5);
    untouched(0);
    untouched(31);
    return report();
}
