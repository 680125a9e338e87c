/* A policy's text read and written, through the header and the static library, from C and from C++: what is answered, what is left, and
 * that one is the inverse of the other. */
#include "oskhrein.h"

#include "check.h"

#include <stddef.h>
#include <stdint.h>
#include <string.h>

#define ALL 0x01000000u
#define ROLE 0x02000000u
#define SET 0x03000000u
#define NOT 0x04000000u
#define PLUS 0x05000000u
#define EITHER 0x06000000u
#define BOTH 0x07000000u
#define TOGETHER 0x08000000u
#define APART 0x09000000u

/* What stands in outputs, in the length and in the byte for the place before a call. */
#define WORD 0xa5a5a5a5u
#define BYTE '#'
#define LENGTH 77u
#define PLACE 0xa5

/* One word and one byte more than the most that is written. */
enum { WORDS = OSKHREIN_MAX_WORDS + 1, BYTES = OSKHREIN_LONGEST_TEXT + 1 };

/* What a call is lent to write in. */
static uint32_t words[WORDS];
static char text[BYTES];
static size_t written;
static uint8_t place;

static void mark(void)
{
    for (size_t i = 0; i < WORDS; i++) {
        words[i] = WORD;
    }
    memset(text, BYTE, BYTES);
    written = LENGTH;
    place = PLACE;
}

/* Whether the words, or the bytes, are as they were from this place on. */
static int kept_words(size_t from)
{
    for (size_t i = from; i < WORDS; i++) {
        if (words[i] != WORD) {
            return 0;
        }
    }
    return 1;
}

static int kept_bytes(size_t from)
{
    for (size_t i = from; i < BYTES; i++) {
        if (text[i] != BYTE) {
            return 0;
        }
    }
    return 1;
}

static uint8_t reading(uint8_t users, uint8_t roles, const char *from, size_t n_from, size_t n_out)
{
    mark();
    return oskhrein_read_text(users, roles, from, n_from, words, n_out, &written, &place);
}

static uint8_t writing(uint8_t users, uint8_t roles, const uint32_t *from, size_t n_from, size_t n_out)
{
    mark();
    return oskhrein_write_text(users, roles, from, n_from, text, n_out, &written, &place);
}

/* A policy's text and its words. */
struct policy {
    const char *text;
    size_t n_words;
    uint32_t words[12];
};

static const struct policy POLICIES[] = {
    {"policy: all", 1, {ALL}},
    {"policy: r0", 1, {ROLE}},
    {"policy: r9", 1, {ROLE | 9}},
    {"policy: r10", 1, {ROLE | 10}},
    {"policy: r15", 1, {ROLE | 15}},
    {"policy: {0}", 1, {SET | 1}},
    {"policy: {0,9,10,15}", 1, {SET | 0x8601}},
    {"policy: {0,1,2,3,4,5,6,7,8,9,10,11,12,13,14,15}", 1, {SET | 0xffff}},
    {"policy: not all", 2, {NOT, ALL}},
    {"policy: plus not r1", 3, {PLUS, NOT, ROLE | 1}},
    {"policy: (all or r1)", 3, {EITHER, ALL, ROLE | 1}},
    {"policy: (all both r1)", 3, {BOTH, ALL, ROLE | 1}},
    {"policy: (all with r1)", 3, {TOGETHER, ALL, ROLE | 1}},
    {"policy: (all apart r1)", 3, {APART, ALL, ROLE | 1}},
    {"policy: ((r0 apart (r2 or (r0 apart r0))) with plus all)",
     10,
     {TOGETHER, APART, ROLE, EITHER, ROLE | 2, APART, ROLE, ROLE, PLUS, ALL}},
};

/* An output of every length up to one more than what is written: too short is 13, and else what lies past it is kept. */
static void outputs(const struct policy *policy)
{
    size_t n_text = strlen(policy->text);

    for (size_t n = 0; n <= policy->n_words + 1; n++) {
        uint8_t code = reading(16, 16, policy->text, n_text, n);
        if (n < policy->n_words) {
            check(code == OSKHREIN_OUTPUT && written == LENGTH && kept_words(0), policy->text);
        } else {
            check(code == OSKHREIN_ACCEPTED && written == policy->n_words && kept_words(written), policy->text);
            check(memcmp(words, policy->words, policy->n_words * sizeof *words) == 0, policy->text);
        }
        check(place == PLACE, policy->text);
    }
    for (size_t n = 0; n <= n_text + 1; n++) {
        uint8_t code = writing(16, 16, policy->words, policy->n_words, n);
        if (n < n_text) {
            check(code == OSKHREIN_OUTPUT && written == LENGTH && kept_bytes(0), policy->text);
        } else {
            check(code == OSKHREIN_ACCEPTED && written == n_text && kept_bytes(written), policy->text);
            check(memcmp(text, policy->text, n_text) == 0, policy->text);
        }
        check(place == PLACE, policy->text);
    }
}

/* A text of two users and two roles is refused so, and leaves all but the place of a policy's fault. */
static void refused(const char *from, size_t n_from, uint8_t code, uint8_t at)
{
    uint8_t answer = reading(2, 2, from, n_from, WORDS);
    check(answer == code && place == at && written == LENGTH && kept_words(0), from);
}
#define REFUSED(from, code, at) refused(from, sizeof from - 1, code, at)

static void openings(void)
{
    static const char opening[] = "policy: all";

    for (size_t n = 0; n < 8; n++) {
        refused(opening, n, OSKHREIN_OPENING, PLACE);
    }
    refused(opening, 8, OSKHREIN_TEXT, PLACE);
    REFUSED("all", OSKHREIN_OPENING, PLACE);
    REFUSED("Policy: all", OSKHREIN_OPENING, PLACE);
    REFUSED(" policy: all", OSKHREIN_OPENING, PLACE);
    REFUSED("policy:\tall", OSKHREIN_OPENING, PLACE);
}

static void no_terms(void)
{
    static const char *const terms[] = {
        "policy:  all",          "policy: all ",          "policy: all\n",          "policy: All",           "policy: allall",
        "policy: r",             "policy: r16",           "policy: r00",            "policy: r01",           "policy: r1 ",
        "policy: {}",            "policy: {0,}",          "policy: {,0}",           "policy: {0",            "policy: {0, 1}",
        "policy: {1,0}",         "policy: {1,1}",         "policy: {16}",           "policy: {00}",          "policy: not",
        "policy: not ",          "policy: notall",        "policy: not  all",       "policy: plusall",       "policy: (all)",
        "policy: (all or all",   "policy: all or all",    "policy: (all or all))",  "policy: (all  or all)", "policy: (all and all)",
        "policy: (all or all )", "policy: ( all or all)", "policy: (all or all) ",  "policy: (all orall)",   "policy: ()",
    };
    for (size_t i = 0; i < sizeof terms / sizeof *terms; i++) {
        refused(terms[i], strlen(terms[i]), OSKHREIN_TEXT, PLACE);
    }
    REFUSED("policy: all\0", OSKHREIN_TEXT, PLACE);
    REFUSED("policy: \0all", OSKHREIN_TEXT, PLACE);
}

/* Bytes behind the length play no part. */
static void lengths(void)
{
    CHECK(reading(16, 16, "policy: r15", 10, WORDS) == OSKHREIN_ACCEPTED && words[0] == (ROLE | 1) && written == 1);
    CHECK(reading(16, 16, "policy: all or", 11, WORDS) == OSKHREIN_ACCEPTED && words[0] == ALL && written == 1);
    refused("policy: r15", 9, OSKHREIN_TEXT, PLACE);
    refused("policy: {1,2}", 12, OSKHREIN_TEXT, PLACE);
}

/* Repeats bytes in front of others behind the opening, and answers the length. */
static size_t repeated(char *out, const char *bytes, size_t times, const char *end)
{
    size_t n = 8;
    memcpy(out, "policy: ", n);
    for (; times > 0; times--) {
        memcpy(out + n, bytes, strlen(bytes));
        n += strlen(bytes);
    }
    memcpy(out + n, end, strlen(end));
    return n + strlen(end);
}

static void long_texts(void)
{
    static char longest[2 * OSKHREIN_MAX_TEXT];
    size_t n = repeated(longest, "not ", 30, "all");

    CHECK(reading(2, 2, longest, n, WORDS) == OSKHREIN_ACCEPTED && written == OSKHREIN_MAX_WORDS);
    refused(longest, repeated(longest, "not ", 31, "all"), OSKHREIN_WORD_COUNT, 0);
    n = repeated(longest, "not ", 253, "{10}");
    CHECK(n == OSKHREIN_MAX_TEXT);
    refused(longest, n, OSKHREIN_WORD_COUNT, 0);
    refused(longest, repeated(longest, "not ", 253, "{0,1}"), OSKHREIN_TEXT, PLACE);
    refused(longest, repeated(longest, "(", 1016, ""), OSKHREIN_TEXT, PLACE);
    refused(longest, repeated(longest, "(", 1017, ""), OSKHREIN_TEXT, PLACE);
    longest[0] = 'P';
    refused(longest, sizeof longest, OSKHREIN_OPENING, PLACE);
}

/* The place is a word's, an operator's before its sides. */
static void faults(void)
{
    REFUSED("policy: r2", OSKHREIN_WORD, 0);
    REFUSED("policy: {0,15}", OSKHREIN_WORD, 0);
    REFUSED("policy: (r2 apart r3)", OSKHREIN_WORD, 1);
    REFUSED("policy: ((all or r1) apart {2})", OSKHREIN_WORD, 4);
    REFUSED("policy: plus plus r2", OSKHREIN_WORD, 2);
    REFUSED("policy: plus plus r1", OSKHREIN_UNIT, 0);
    REFUSED("policy: (r1 with not (all with all))", OSKHREIN_UNIT, 2);
    REFUSED("policy: ((all or not all) with plus plus all)", OSKHREIN_UNIT, 5);
}

/* Of several things that are wrong, the first is answered. */
static void in_order(void)
{
    static const uint32_t bad_word[] = {NOT, PLUS, ROLE | 2};
    static const uint32_t left_over[] = {NOT, PLUS, ALL, ALL};
    static const uint32_t over_plus[] = {ALL, NOT, PLUS, ALL};

    CHECK(reading(0, 2, "policy:", 7, 0) == OSKHREIN_OPENING);
    CHECK(reading(0, 2, "policy: r16", 11, 0) == OSKHREIN_TEXT);
    CHECK(reading(0, 2, "policy: plus plus r2", 20, 0) == OSKHREIN_COUNTS && place == PLACE);
    CHECK(reading(2, 17, "policy: plus plus r2", 20, 0) == OSKHREIN_COUNTS && place == PLACE);
    CHECK(reading(2, 2, "policy: plus plus r2", 20, 0) == OSKHREIN_WORD && place == 2);
    CHECK(reading(2, 2, "policy: plus plus r1", 20, 0) == OSKHREIN_UNIT && place == 0);
    CHECK(reading(2, 2, "policy: plus r1", 15, 1) == OSKHREIN_OUTPUT && place == PLACE);

    CHECK(writing(17, 2, bad_word, 3, 0) == OSKHREIN_COUNTS && place == PLACE);
    CHECK(writing(2, 2, bad_word, 0, 0) == OSKHREIN_WORD_COUNT && place == 0);
    CHECK(writing(2, 2, bad_word, 3, 0) == OSKHREIN_WORD && place == 2);
    CHECK(writing(2, 2, left_over, 4, 0) == OSKHREIN_TERM && place == 3);
    CHECK(writing(2, 2, over_plus + 1, 3, 0) == OSKHREIN_UNIT && place == 0);
    CHECK(writing(2, 2, over_plus, 1, 10) == OSKHREIN_OUTPUT && place == PLACE);
    CHECK(written == LENGTH && kept_bytes(0));
}

/* The longest text: 16 sets of 16 users, apart. */
static void longest_text(void)
{
    uint32_t sets[OSKHREIN_MAX_WORDS];
    static char before[BYTES];

    for (size_t i = 0; i < OSKHREIN_MAX_WORDS; i++) {
        sets[i] = i % 2 == 0 && i + 1 < OSKHREIN_MAX_WORDS ? APART : SET | 0xffff;
    }
    CHECK(writing(16, 1, sets, OSKHREIN_MAX_WORDS, OSKHREIN_LONGEST_TEXT - 1) == OSKHREIN_OUTPUT && kept_bytes(0));
    CHECK(writing(16, 1, sets, OSKHREIN_MAX_WORDS, BYTES) == OSKHREIN_ACCEPTED);
    CHECK(written == OSKHREIN_LONGEST_TEXT && kept_bytes(OSKHREIN_LONGEST_TEXT));
    memcpy(before, text, BYTES);
    CHECK(reading(16, 1, before, OSKHREIN_LONGEST_TEXT, OSKHREIN_MAX_WORDS) == OSKHREIN_ACCEPTED);
    CHECK(written == OSKHREIN_MAX_WORDS && memcmp(words, sets, sizeof sets) == 0);
}

/* Every text with one byte in place of another is refused, or is what its policy is written as. */
static void altered(const struct policy *policy)
{
    static char other[BYTES];
    size_t n_text = strlen(policy->text);
    uint32_t read[WORDS];
    int ok = 1;

    memcpy(other, policy->text, n_text);
    for (size_t i = 0; i < n_text; i++) {
        for (int byte = 0; byte < 256; byte++) {
            other[i] = (char)byte;
            if (reading(16, 16, other, n_text, WORDS) == OSKHREIN_ACCEPTED) {
                size_t n_words = written;
                memcpy(read, words, sizeof read);
                ok = ok && writing(16, 16, read, n_words, BYTES) == OSKHREIN_ACCEPTED && written == n_text;
                ok = ok && memcmp(text, other, n_text) == 0;
            } else {
                ok = ok && written == LENGTH && kept_words(0);
            }
        }
        other[i] = policy->text[i];
    }
    check(ok, policy->text);
}

int main(void)
{
    for (size_t i = 0; i < sizeof POLICIES / sizeof *POLICIES; i++) {
        outputs(&POLICIES[i]);
        altered(&POLICIES[i]);
    }
    openings();
    no_terms();
    lengths();
    long_texts();
    faults();
    in_order();
    longest_text();
    return report();
}
