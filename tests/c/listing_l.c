/* Document 01's listing L and settled examples through the header and the static library, from C and from C++. */
#include "oskhrein.h"

#include "check.h"

#include <stddef.h>
#include <stdint.h>
#include <stdio.h>
#include <string.h>

/* One word past the end, which every call must keep. */
static uint32_t workspace[OSKHREIN_WORKSPACE_WORDS + 1];
#define GUARD 0xa5a5a5a5u

/* For the place of a policy's fault; places.c looks at it. */
static uint8_t place;

static const uint32_t POLICY_F[] = {0x08000000, 0x09000000, 0x02000000, 0x06000000, 0x02000002,
                                    0x09000000, 0x02000000, 0x02000000, 0x05000000, 0x01000000};
#define WORDS_F (sizeof POLICY_F / sizeof *POLICY_F)

static const uint16_t ROWS_L[] = {2, 1, 0};

/* Neither permissions nor a workflow. */
static const uint8_t NOTHING[1] = {0};
#define NEITHER NOTHING, 0, NOTHING, 0

static void fill_workspace(uint32_t value)
{
    for (size_t i = 0; i <= OSKHREIN_WORKSPACE_WORDS; i++) {
        workspace[i] = value;
    }
}

static int workspace_is(uint32_t value)
{
    for (size_t i = 0; i <= OSKHREIN_WORKSPACE_WORDS; i++) {
        if (workspace[i] != value) {
            return 0;
        }
    }
    return 1;
}

/* A monitor has no padding, so that its bytes are all of it. */
static int same(const struct oskhrein_monitor *a, const struct oskhrein_monitor *b)
{
    return memcmp(a, b, sizeof *a) == 0;
}

static uint8_t open_l(struct oskhrein_monitor *monitor)
{
    return oskhrein_open(monitor, 3, 3, POLICY_F, WORDS_F, ROWS_L, 3, NEITHER, &place);
}

static void version_and_layout(void)
{
    CHECK(oskhrein_version() == OSKHREIN_VERSION);
    CHECK(oskhrein_layout() == OSKHREIN_LAYOUT);
    CHECK(sizeof(struct oskhrein_configuration) == 168);
    CHECK(offsetof(struct oskhrein_configuration, permissions) == 0);
    CHECK(offsetof(struct oskhrein_configuration, user_roles) == 128);
    CHECK(offsetof(struct oskhrein_configuration, users) == 160);
    CHECK(offsetof(struct oskhrein_configuration, roles) == 164);
    CHECK(sizeof(struct oskhrein_action) == 8);
    CHECK(offsetof(struct oskhrein_action, met) == 4);
    CHECK(sizeof(struct oskhrein_transition) == 3);
    CHECK(offsetof(struct oskhrein_transition, action) == 1);
    CHECK(offsetof(struct oskhrein_transition, next) == 2);
    CHECK(sizeof(struct oskhrein_workflow) == 196);
    CHECK(offsetof(struct oskhrein_workflow, final_states) == 192);
    CHECK(offsetof(struct oskhrein_workflow, states) == 194);
    CHECK(offsetof(struct oskhrein_workflow, count) == 195);
    CHECK(sizeof(struct oskhrein_instance) == 424);
    CHECK(offsetof(struct oskhrein_instance, policy) == 0);
    CHECK(offsetof(struct oskhrein_instance, actions) == 124);
    CHECK(offsetof(struct oskhrein_instance, workflow) == 220);
    CHECK(offsetof(struct oskhrein_instance, words) == 416);
    CHECK(offsetof(struct oskhrein_instance, taken) == 417);
    CHECK(offsetof(struct oskhrein_instance, closed) == 418);
    CHECK(offsetof(struct oskhrein_instance, status) == 419);
    CHECK(offsetof(struct oskhrein_instance, state) == 420);
    CHECK(sizeof(struct oskhrein_monitor) == 592);
    CHECK(offsetof(struct oskhrein_monitor, instance) == 168);
}

/* Words as the functions of the header make them. */
static void made_words(void)
{
    const uint32_t policy[] = {
        oskhrein_policy_word(OSKHREIN_KIND_TOGETHER, 0), oskhrein_policy_word(OSKHREIN_KIND_APART, 0),
        oskhrein_policy_word(OSKHREIN_KIND_ROLE, 0),     oskhrein_policy_word(OSKHREIN_KIND_EITHER, 0),
        oskhrein_policy_word(OSKHREIN_KIND_ROLE, 2),     oskhrein_policy_word(OSKHREIN_KIND_APART, 0),
        oskhrein_policy_word(OSKHREIN_KIND_ROLE, 0),     oskhrein_policy_word(OSKHREIN_KIND_ROLE, 0),
        oskhrein_policy_word(OSKHREIN_KIND_PLUS, 0),     oskhrein_policy_word(OSKHREIN_KIND_EVERYONE, 0),
    };
    CHECK(sizeof policy == sizeof POLICY_F && memcmp(policy, POLICY_F, sizeof policy) == 0);
    CHECK(oskhrein_policy_word(OSKHREIN_KIND_SET, 0x8001) == 0x03008001);
    CHECK(oskhrein_policy_word(OSKHREIN_KIND_NOT, 0) == 0x04000000);
    CHECK(oskhrein_policy_word(OSKHREIN_KIND_BOTH, 0) == 0x07000000);
    CHECK(oskhrein_event_word(OSKHREIN_EVENT_ACTION, 2, 3) == 0x01000203);
    CHECK(oskhrein_event_word(OSKHREIN_EVENT_GRANT, 1, 2) == 0x02000102);
    CHECK(oskhrein_event_word(OSKHREIN_EVENT_REVOKE, 255, 255) == 0x0300ffff);
    CHECK(oskhrein_event_word(OSKHREIN_EVENT_CLOSE, 0, 0) == 0x04000000);
}

/* The opened monitor, field by field: what the library writes is what the header reads. */
static void opening(void)
{
    static const struct oskhrein_monitor blank = OSKHREIN_BLANK;
    struct oskhrein_monitor want = blank;
    struct oskhrein_monitor monitor;

    memcpy(want.configuration.user_roles, ROWS_L, sizeof ROWS_L);
    want.configuration.users = 3;
    want.configuration.roles = 3;
    memcpy(want.instance.policy, POLICY_F, sizeof POLICY_F);
    want.instance.words = WORDS_F;
    want.instance.status = OSKHREIN_STATUS_OPEN;
    memset(&monitor, 0xa5, sizeof monitor);
    CHECK(open_l(&monitor) == OSKHREIN_ACCEPTED);
    CHECK(same(&monitor, &want));

    CHECK(oskhrein_open(&monitor, 17, 3, POLICY_F, WORDS_F, ROWS_L, 3, NEITHER, &place) == OSKHREIN_COUNTS);
    CHECK(same(&monitor, &blank));
    CHECK(open_l(&monitor) == OSKHREIN_ACCEPTED);
    CHECK(oskhrein_open(&monitor, 3, 3, POLICY_F, WORDS_F, ROWS_L, 2, NEITHER, &place) == OSKHREIN_ROWS);
    CHECK(same(&monitor, &blank));
    CHECK(oskhrein_open(&monitor, 3, 3, POLICY_F, 0, ROWS_L, 3, NEITHER, &place) == OSKHREIN_WORD_COUNT);
    CHECK(oskhrein_open(&monitor, 3, 2, POLICY_F, WORDS_F, ROWS_L, 3, NEITHER, &place) == OSKHREIN_WORD);
    CHECK(oskhrein_open(&monitor, 3, 3, POLICY_F, WORDS_F - 1, ROWS_L, 3, NEITHER, &place) == OSKHREIN_TERM);
    static const uint32_t plus_over_together[] = {0x05000000, 0x08000000, 0x01000000, 0x01000000};
    CHECK(oskhrein_open(&monitor, 3, 3, plus_over_together, 4, ROWS_L, 3, NEITHER, &place) == OSKHREIN_UNIT);
}

static void listing_l(void)
{
    static const uint32_t events[] = {0x01000001, 0x01000102, 0x02000102, 0x02000202, 0x04000000,
                                      0x01000203, 0x01000004, 0x04000000, 0x01000004};
    static const char *const want[] = {"1 0 o", "2 0 o", "3 0 o", "4 0 o", "5 11 o", "6 0 c", "7 0 c", "8 0 d", "9 10 d"};
    struct oskhrein_monitor monitor = OSKHREIN_BLANK;
    char line[32];

    fill_workspace(GUARD);
    check(open_l(&monitor) == OSKHREIN_ACCEPTED, "listing L opens");
    for (size_t i = 0; i < sizeof events / sizeof *events; i++) {
        unsigned code = oskhrein_event(&monitor, events[i], workspace, OSKHREIN_WORKSPACE_WORDS);
        unsigned letter = oskhrein_status(&monitor);
        snprintf(line, sizeof line, "%u %u %c", (unsigned)i + 1, code, (char)letter);
        check(strcmp(line, want[i]) == 0, want[i]);
    }
    snprintf(line, sizeof line, "taken %u", (unsigned)monitor.instance.taken);
    check(strcmp(line, "taken 4") == 0, "taken 4");
    check(workspace[OSKHREIN_WORKSPACE_WORDS] == GUARD, "words from 8,192 on stay");
    /* All four taken actions satisfy the policy, none of them satisfies it alone. */
    CHECK((workspace[15] & 1) == 1);
    CHECK((workspace[1] & 1) == 0 && (workspace[2] & 1) == 0 && (workspace[4] & 1) == 0 && (workspace[8] & 1) == 0);
    CHECK(workspace[16] == 0 && workspace[4096 + 16] == 0);
}

static uint8_t satisfies_f(uint8_t first, uint8_t second, uint8_t third, uint8_t undeclared, size_t n_workspace)
{
    static const uint16_t rows[] = {2, 5, 4};
    const uint8_t counts[OSKHREIN_MAX_USERS] = {first, second, third, undeclared};
    return oskhrein_satisfies(3, 3, POLICY_F, WORDS_F, rows, 3, counts, workspace, n_workspace, &place);
}

static void multisets(void)
{
    check(satisfies_f(2, 1, 1, 0, OSKHREIN_WORKSPACE_WORDS) == OSKHREIN_YES, "P2");
    check(satisfies_f(1, 0, 1, 0, OSKHREIN_WORKSPACE_WORDS) == OSKHREIN_NO, "P3");
    check(satisfies_f(1, 1, 0, 0, OSKHREIN_WORKSPACE_WORDS) == OSKHREIN_NO, "P4");
    check(satisfies_f(0, 0, 0, 0, OSKHREIN_WORKSPACE_WORDS) == OSKHREIN_NO, "the empty multiset");
    fill_workspace(GUARD);
    CHECK(satisfies_f(1, 1, 1, 1, OSKHREIN_WORKSPACE_WORDS) == OSKHREIN_MALFORMED);
    CHECK(satisfies_f(6, 6, 1, 0, OSKHREIN_WORKSPACE_WORDS) == OSKHREIN_FULL);
    CHECK(satisfies_f(2, 1, 1, 0, OSKHREIN_WORKSPACE_WORDS - 1) == OSKHREIN_WORKSPACE);
    CHECK(workspace_is(GUARD));
}

/* A multiset's actions are numbered by ascending user: the words of single actions tell whose they are. */
static void numbering(void)
{
    static const uint32_t policy[] = {0x08000000, 0x02000000, 0x08000000, 0x02000001, 0x02000002};
    static const uint16_t rows[] = {2, 1, 1, 4};
    static const uint8_t counts[OSKHREIN_MAX_USERS] = {1, 2, 0, 1};
    static uint32_t other[OSKHREIN_WORKSPACE_WORDS];

    fill_workspace(GUARD);
    CHECK(oskhrein_satisfies(4, 3, policy, 5, rows, 4, counts, workspace, OSKHREIN_WORKSPACE_WORDS, &place) == OSKHREIN_NO);
    CHECK(workspace[1] == 1u << 3 && workspace[2] == 1u << 1 && workspace[4] == 1u << 1 && workspace[8] == 1u << 4);
    CHECK(oskhrein_satisfies(4, 3, policy, 5, rows, 4, counts, other, OSKHREIN_WORKSPACE_WORDS, &place) == OSKHREIN_NO);
    check(memcmp(workspace, other, sizeof other) == 0, "the same question leaves the same words");
}

/* A refusal gives only its number: monitor and workspace keep what they had, but for 9 the workspace. */
static void refusals(void)
{
    struct oskhrein_monitor monitor = OSKHREIN_BLANK;
    struct oskhrein_monitor before;

    CHECK(open_l(&monitor) == OSKHREIN_ACCEPTED);
    before = monitor;
    fill_workspace(GUARD);
    CHECK(oskhrein_event(&monitor, 0x01000001, workspace, OSKHREIN_WORKSPACE_WORDS - 1) == OSKHREIN_WORKSPACE);
    CHECK(oskhrein_event(&monitor, 0x01000301, workspace, OSKHREIN_WORKSPACE_WORDS) == OSKHREIN_MALFORMED);
    CHECK(same(&monitor, &before) && workspace_is(GUARD));

    check(oskhrein_event(&monitor, 0x01000201, workspace, OSKHREIN_WORKSPACE_WORDS) == OSKHREIN_NOT_POSSIBLE, "P5");
    CHECK(same(&monitor, &before) && workspace[OSKHREIN_WORKSPACE_WORDS] == GUARD && !workspace_is(GUARD));

    /* Every mark but 0 is closed, and any bytes are answered. */
    monitor.instance.closed = 2;
    monitor.instance.status = OSKHREIN_STATUS_CLOSED;
    before = monitor;
    CHECK(oskhrein_status(&monitor) == OSKHREIN_STATUS_CLOSED);
    CHECK(oskhrein_event(&monitor, 0x01000001, workspace, OSKHREIN_WORKSPACE_WORDS) == OSKHREIN_CLOSED);
    CHECK(same(&monitor, &before));
    memset(&monitor, 0xa5, sizeof monitor);
    CHECK(oskhrein_status(&monitor) == OSKHREIN_MONITOR);

    CHECK(open_l(&monitor) == OSKHREIN_ACCEPTED);
    monitor.instance.taken = 13;
    before = monitor;
    fill_workspace(GUARD);
    CHECK(oskhrein_event(&monitor, 0x01000001, workspace, OSKHREIN_WORKSPACE_WORDS) == OSKHREIN_MONITOR);
    CHECK(oskhrein_status(&monitor) == OSKHREIN_MONITOR);
    CHECK(same(&monitor, &before) && workspace_is(GUARD));
}

/* Along listing L a mask that is kept, and asked for anew after 0 only, is always what a call answers. */
static void kept_mask(void)
{
    static const uint32_t events[] = {0x01000201, 0x01000001, 0x01000102, 0x02000102, 0x02000202, 0x04000000, 0x00000000,
                                      0x01000203, 0x01000004, 0x03000102, 0x04000000, 0x01000004};
    static const uint16_t want[] = {3, 3, 3, 3, 7, 7, 7, 7, 7, 7, 0, 0};
    struct oskhrein_monitor monitor = OSKHREIN_BLANK;
    uint16_t kept = 0xa5a5;

    CHECK(open_l(&monitor) == OSKHREIN_ACCEPTED);
    CHECK(oskhrein_enabled(&monitor, 0, workspace, OSKHREIN_WORKSPACE_WORDS, &kept) == OSKHREIN_ACCEPTED && kept == 3);
    for (size_t i = 0; i < sizeof events / sizeof *events; i++) {
        uint16_t users = 0xa5a5;
        uint8_t code = oskhrein_event(&monitor, events[i], workspace, OSKHREIN_WORKSPACE_WORDS);
        CHECK(oskhrein_enabled(&monitor, 0, workspace, OSKHREIN_WORKSPACE_WORDS, &users) == OSKHREIN_ACCEPTED);
        if (code == OSKHREIN_ACCEPTED) {
            kept = users;
        }
        CHECK(kept == users && users == want[i]);
    }
}

/* The mask, the workspace of the last user's trial, and what a closed monitor, a full one and a refusal leave. */
static void enabled(void)
{
    static const uint32_t plus_everyone[] = {0x05000000, 0x01000000};
    static const uint16_t rows[] = {1, 0};
    static uint32_t trial[OSKHREIN_WORKSPACE_WORDS + 1];
    struct oskhrein_monitor monitor = OSKHREIN_BLANK;
    struct oskhrein_monitor before;
    uint16_t users = 0xa5a5;

    CHECK(open_l(&monitor) == OSKHREIN_ACCEPTED);
    before = monitor;
    fill_workspace(GUARD);
    CHECK(oskhrein_event(&monitor, 0x01000201, workspace, OSKHREIN_WORKSPACE_WORDS) == OSKHREIN_NOT_POSSIBLE);
    memcpy(trial, workspace, sizeof trial);
    fill_workspace(GUARD);
    CHECK(oskhrein_enabled(&monitor, 0, workspace, OSKHREIN_WORKSPACE_WORDS, &users) == OSKHREIN_ACCEPTED);
    CHECK(users == 3 && same(&monitor, &before) && memcmp(trial, workspace, sizeof trial) == 0);

    users = 0xa5a5;
    fill_workspace(GUARD);
    CHECK(oskhrein_enabled(&monitor, 0, workspace, OSKHREIN_WORKSPACE_WORDS - 1, &users) == OSKHREIN_WORKSPACE);
    monitor.instance.taken = 13;
    CHECK(oskhrein_enabled(&monitor, 0, workspace, OSKHREIN_WORKSPACE_WORDS - 1, &users) == OSKHREIN_WORKSPACE);
    CHECK(oskhrein_enabled(&monitor, 0, workspace, OSKHREIN_WORKSPACE_WORDS, &users) == OSKHREIN_MONITOR);
    CHECK(users == 0xa5a5 && workspace_is(GUARD));

    before.instance.closed = 2;
    before.instance.status = OSKHREIN_STATUS_CLOSED;
    CHECK(oskhrein_enabled(&before, 0, workspace, OSKHREIN_WORKSPACE_WORDS, &users) == OSKHREIN_ACCEPTED);
    check(users == 0 && workspace_is(GUARD), "nobody may act on a closed monitor");

    CHECK(oskhrein_open(&monitor, 2, 1, plus_everyone, 2, rows, 2, NEITHER, &place) == OSKHREIN_ACCEPTED);
    for (int taken = 0; taken < OSKHREIN_MAX_ACTIONS; taken++) {
        CHECK(oskhrein_enabled(&monitor, 0, workspace, OSKHREIN_WORKSPACE_WORDS, &users) == OSKHREIN_ACCEPTED && users == 1);
        CHECK(oskhrein_event(&monitor, 0x01000000, workspace, OSKHREIN_WORKSPACE_WORDS) == OSKHREIN_ACCEPTED);
    }
    fill_workspace(GUARD);
    CHECK(oskhrein_enabled(&monitor, 0, workspace, OSKHREIN_WORKSPACE_WORDS, &users) == OSKHREIN_ACCEPTED);
    check(users == 0 && workspace_is(GUARD), "nobody may act on a full monitor");
}

static uint8_t event(struct oskhrein_monitor *monitor, uint32_t word)
{
    return oskhrein_event(monitor, word, workspace, OSKHREIN_WORKSPACE_WORDS);
}

static uint16_t enabled_users(const struct oskhrein_monitor *monitor)
{
    uint16_t users = 0xa5a5;
    CHECK(oskhrein_enabled(monitor, 0, workspace, OSKHREIN_WORKSPACE_WORDS, &users) == OSKHREIN_ACCEPTED);
    return users;
}

/* P6: user 1 acts as role 2, loses it, and holds no role when she acts again. */
static void role_then_none(void)
{
    static const uint32_t policy[] = {0x08000000, 0x02000002, 0x04000000, 0x02000002};
    static const uint16_t rows[] = {0, 0, 0};
    static const uint32_t events[] = {0x02000102, 0x01000100, 0x03000102, 0x01000100, 0x04000000};
    static const uint8_t want[] = {0, 0, 0, OSKHREIN_NOT_POSSIBLE, OSKHREIN_NOT_SATISFIED};
    struct oskhrein_monitor monitor = OSKHREIN_BLANK;

    CHECK(oskhrein_open(&monitor, 3, 3, policy, 4, rows, 3, NEITHER, &place) == OSKHREIN_ACCEPTED);
    for (size_t i = 0; i < sizeof events / sizeof *events; i++) {
        check(event(&monitor, events[i]) == want[i], "P6");
    }
    CHECK(monitor.instance.taken == 1 && enabled_users(&monitor) == 0);
}

/* Plus not Anna, who is user 0: neither she nor user 1 may act once they hold no role, and what user 1 did before stays. */
static void leavers(void)
{
    static const uint32_t not_anna[] = {0x05000000, 0x04000000, 0x03000001};
    static const uint16_t rows[] = {1, 3, 2};
    struct oskhrein_monitor monitor = OSKHREIN_BLANK;

    CHECK(oskhrein_open(&monitor, 3, 2, not_anna, 3, rows, 3, NEITHER, &place) == OSKHREIN_ACCEPTED);
    CHECK(enabled_users(&monitor) == 6);
    CHECK(event(&monitor, 0x01000100) == OSKHREIN_ACCEPTED);
    CHECK(event(&monitor, 0x03000100) == OSKHREIN_ACCEPTED && enabled_users(&monitor) == 6);
    CHECK(event(&monitor, 0x03000101) == OSKHREIN_ACCEPTED && enabled_users(&monitor) == 4);
    CHECK(event(&monitor, 0x01000100) == OSKHREIN_NOT_POSSIBLE);
    CHECK(event(&monitor, 0x03000000) == OSKHREIN_ACCEPTED && enabled_users(&monitor) == 4);
    check(event(&monitor, 0x01000000) == OSKHREIN_NOT_POSSIBLE, "a leaver does not pass as not Anna");
    CHECK(event(&monitor, 0x04000000) == OSKHREIN_ACCEPTED && monitor.instance.taken == 1);
}

static void normal_forms(void)
{
    static const uint32_t want[] = {0x08000000, 0x05000000, 0x01000000, 0x09000000, 0x02000000, 0x06000000,
                                    0x02000002, 0x09000000, 0x02000000, 0x02000000, GUARD,      GUARD};
    static const uint32_t both[] = {0x07000000, 0x01000000, 0x01000000};
    static const uint32_t plus_over_together[] = {0x05000000, 0x08000000, 0x01000000, 0x01000000};
    uint32_t out[WORDS_F + 2];
    uint32_t before[WORDS_F + 2];

    for (size_t i = 0; i < WORDS_F + 2; i++) {
        out[i] = before[i] = GUARD;
    }
    CHECK(oskhrein_normal_form(3, 3, POLICY_F, WORDS_F, out, WORDS_F - 1, &place) == OSKHREIN_OUTPUT);
    CHECK(oskhrein_normal_form(3, 3, plus_over_together, 4, out, WORDS_F, &place) == OSKHREIN_UNIT);
    CHECK(oskhrein_normal_form(0, 3, POLICY_F, WORDS_F, out, WORDS_F, &place) == OSKHREIN_COUNTS);
    CHECK(memcmp(out, before, sizeof out) == 0);
    CHECK(oskhrein_normal_form(3, 3, POLICY_F, WORDS_F, out, WORDS_F + 2, &place) == OSKHREIN_ACCEPTED);
    check(memcmp(out, want, sizeof out) == 0, "P10");
    CHECK(oskhrein_normal_form(3, 3, both, 3, out, 3, &place) == OSKHREIN_ACCEPTED);
    check(memcmp(out, both, sizeof both) == 0, "P11");
}

int main(void)
{
    version_and_layout();
    made_words();
    opening();
    listing_l();
    multisets();
    numbering();
    refusals();
    kept_mask();
    enabled();
    role_then_none();
    leavers();
    normal_forms();
    return report();
}
