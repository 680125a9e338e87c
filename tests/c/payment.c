/* Permissions and a workflow through the header and the static library, from C and from C++: document 004's payment workflow. */
#include "oskhrein.h"

#include "check.h"

#include <stddef.h>
#include <stdint.h>
#include <string.h>

#define GUARD 0xa5a5a5a5u

/* The actions: an invoice is received, a check is prepared, the payment is approved, the check is issued, the payment is rejected. */
enum { RECEIVE = 1, PREPARE, APPROVE, ISSUE, REJECT };

/* The users and the roles. */
enum { ALICE, BOB, CLAIRE };
enum { ACCOUNTANT, CLERK, MANAGER };

static const uint32_t POLICY_F[] = {0x08000000, 0x09000000, 0x02000000, 0x06000000, 0x02000002,
                                    0x09000000, 0x02000000, 0x02000000, 0x05000000, 0x01000000};
static const uint32_t PLUS_EVERYONE[] = {0x05000000, 0x01000000};
static const uint16_t ROWS[] = {1 << CLERK, 1 << ACCOUNTANT, 0};

/* Accountants prepare, clerks receive and issue, managers approve and reject. */
static const uint8_t PERMISSIONS[] = {
    1 << PREPARE,                0, 0, 0, 0, 0, 0, 0, /* role 0 */
    1 << RECEIVE | 1 << ISSUE,   0, 0, 0, 0, 0, 0, 0, /* role 1 */
    1 << APPROVE | 1 << REJECT,  0, 0, 0, 0, 0, 0, 0, /* role 2 */
};

/* Five states, seven transitions, of the states the last is final. */
static const uint8_t WORKFLOW[] = {5, 7, 1 << 4, 0, 0, RECEIVE, 1, 1, PREPARE, 2, 2, APPROVE, 3, 2, REJECT, 1,
                                   3, APPROVE, 3, 3, REJECT, 1, 3, ISSUE, 4};

static uint32_t workspace[OSKHREIN_WORKSPACE_WORDS];
static uint8_t place;

static uint8_t opened(struct oskhrein_monitor *monitor, const uint32_t *words, size_t n_words, const uint8_t *permissions,
                      size_t n_permissions, const uint8_t *workflow, size_t n_workflow)
{
    return oskhrein_open(monitor, 3, 3, words, n_words, ROWS, 3, permissions, n_permissions, workflow, n_workflow, &place);
}

static uint8_t open_payment(struct oskhrein_monitor *monitor, const uint32_t *words, size_t n_words)
{
    return opened(monitor, words, n_words, PERMISSIONS, sizeof PERMISSIONS, WORKFLOW, sizeof WORKFLOW);
}

static uint8_t act(struct oskhrein_monitor *monitor, uint8_t user, uint8_t action)
{
    uint32_t word = oskhrein_event_word(OSKHREIN_EVENT_ACTION, user, action);
    return oskhrein_event(monitor, word, workspace, OSKHREIN_WORKSPACE_WORDS);
}

static uint8_t grant(struct oskhrein_monitor *monitor, uint8_t user, uint8_t role)
{
    uint32_t word = oskhrein_event_word(OSKHREIN_EVENT_GRANT, user, role);
    return oskhrein_event(monitor, word, workspace, OSKHREIN_WORKSPACE_WORDS);
}

static uint8_t close_it(struct oskhrein_monitor *monitor)
{
    return oskhrein_event(monitor, oskhrein_event_word(OSKHREIN_EVENT_CLOSE, 0, 0), workspace, OSKHREIN_WORKSPACE_WORDS);
}

static uint16_t enabled(const struct oskhrein_monitor *monitor, uint8_t action)
{
    uint16_t users = 0xa5a5;
    CHECK(oskhrein_enabled(monitor, action, workspace, OSKHREIN_WORKSPACE_WORDS, &users) == OSKHREIN_ACCEPTED);
    return users;
}

static void mark_workspace(void)
{
    for (size_t i = 0; i < OSKHREIN_WORKSPACE_WORDS; i++) {
        workspace[i] = GUARD;
    }
}

static int is_marked(void)
{
    for (size_t i = 0; i < OSKHREIN_WORKSPACE_WORDS; i++) {
        if (workspace[i] != GUARD) {
            return 0;
        }
    }
    return 1;
}

/* What is opened, field by field. */
static void opening(void)
{
    struct oskhrein_monitor monitor = OSKHREIN_BLANK;
    const struct oskhrein_workflow *workflow = &monitor.instance.workflow;

    CHECK(open_payment(&monitor, POLICY_F, 10) == OSKHREIN_ACCEPTED);
    CHECK(monitor.configuration.permissions[ACCOUNTANT] == 1u << PREPARE);
    CHECK(monitor.configuration.permissions[MANAGER] == (1u << APPROVE | 1u << REJECT));
    CHECK(monitor.configuration.permissions[3] == 0);
    CHECK(workflow->states == 5 && workflow->count == 7 && workflow->final_states == 1 << 4);
    CHECK(workflow->transitions[6].state == 3 && workflow->transitions[6].action == ISSUE && workflow->transitions[6].next == 4);
    CHECK(workflow->transitions[7].state == 0 && workflow->transitions[7].action == 0 && workflow->transitions[7].next == 0);
    CHECK(monitor.instance.state == 0 && monitor.instance.taken == 0);
}

/* An opening with these permissions and this workflow is refused, and leaves the blank monitor and the place. */
static void refused(const char *what, const uint8_t *permissions, size_t n_permissions, const uint8_t *workflow, size_t n_workflow)
{
    static const struct oskhrein_monitor blank = OSKHREIN_BLANK;
    struct oskhrein_monitor monitor;

    memset(&monitor, 0xa5, sizeof monitor);
    place = 0xa5;
    check(opened(&monitor, PLUS_EVERYONE, 2, permissions, n_permissions, workflow, n_workflow) == OSKHREIN_WORKFLOW, what);
    CHECK(memcmp(&monitor, &blank, sizeof monitor) == 0 && place == 0xa5);
}

/* The payment workflow with one byte another is refused. */
static void altered(const char *what, size_t at, uint8_t byte)
{
    uint8_t workflow[sizeof WORKFLOW];
    memcpy(workflow, WORKFLOW, sizeof workflow);
    workflow[at] = byte;
    refused(what, PERMISSIONS, sizeof PERMISSIONS, workflow, sizeof workflow);
}

static void refusals(void)
{
    struct oskhrein_monitor monitor = OSKHREIN_BLANK;

    refused("permissions alone", PERMISSIONS, sizeof PERMISSIONS, WORKFLOW, 0);
    refused("workflow alone", PERMISSIONS, 0, WORKFLOW, sizeof WORKFLOW);
    refused("permissions a byte short", PERMISSIONS, sizeof PERMISSIONS - 1, WORKFLOW, sizeof WORKFLOW);
    refused("workflow a byte short", PERMISSIONS, sizeof PERMISSIONS, WORKFLOW, sizeof WORKFLOW - 1);
    refused("workflow of three bytes", PERMISSIONS, sizeof PERMISSIONS, WORKFLOW, 3);
    altered("no state", 0, 0);
    altered("17 states", 0, 17);
    altered("undeclared final state", 2, 1 << 5);
    altered("undeclared state", 4, 5);
    altered("action above 63", 5, 64);
    altered("undeclared next state", 6, 5);
    altered("state and action twice", 4 + 3 * 6 + 1, APPROVE);
    CHECK(opened(&monitor, PLUS_EVERYONE, 2, PERMISSIONS, 0, WORKFLOW, 0) == OSKHREIN_ACCEPTED);
    CHECK(act(&monitor, ALICE, 255) == OSKHREIN_ACCEPTED && monitor.instance.state == 0);
    CHECK(close_it(&monitor) == OSKHREIN_ACCEPTED);
}

/* Nobody may approve; then Bob may, but under the policy another has to; Claire does. */
static void payment(void)
{
    struct oskhrein_monitor monitor = OSKHREIN_BLANK;
    struct oskhrein_monitor before;

    CHECK(open_payment(&monitor, POLICY_F, 10) == OSKHREIN_ACCEPTED);
    CHECK(act(&monitor, ALICE, RECEIVE) == OSKHREIN_ACCEPTED && monitor.instance.state == 1);
    CHECK(act(&monitor, BOB, PREPARE) == OSKHREIN_ACCEPTED && monitor.instance.state == 2);
    before = monitor;
    mark_workspace();
    CHECK(act(&monitor, BOB, APPROVE) == OSKHREIN_NOT_AUTHORIZED);
    CHECK(act(&monitor, BOB, 64) == OSKHREIN_NOT_AUTHORIZED);
    CHECK(act(&monitor, CLAIRE, ISSUE) == OSKHREIN_NOT_AUTHORIZED);
    CHECK(act(&monitor, ALICE, ISSUE) == OSKHREIN_NO_TRANSITION);
    CHECK(is_marked() && memcmp(&monitor, &before, sizeof monitor) == 0);

    CHECK(grant(&monitor, BOB, MANAGER) == OSKHREIN_ACCEPTED && grant(&monitor, CLAIRE, MANAGER) == OSKHREIN_ACCEPTED);
    CHECK(act(&monitor, CLAIRE, APPROVE) == OSKHREIN_ACCEPTED && monitor.instance.state == 3);
    CHECK(oskhrein_status(&monitor) == OSKHREIN_STATUS_COMPLETE);
    check(close_it(&monitor) == OSKHREIN_NOT_SATISFIED, "satisfied, but in no final state");
    CHECK(act(&monitor, ALICE, ISSUE) == OSKHREIN_ACCEPTED && monitor.instance.state == 4);
    CHECK(close_it(&monitor) == OSKHREIN_ACCEPTED && monitor.instance.taken == 4);
    CHECK(act(&monitor, ALICE, RECEIVE) == OSKHREIN_CLOSED);
}

/* In a final state, but Bob has prepared and approved alone. */
static void alone(void)
{
    struct oskhrein_monitor monitor = OSKHREIN_BLANK;

    CHECK(open_payment(&monitor, POLICY_F, 10) == OSKHREIN_ACCEPTED);
    CHECK(act(&monitor, ALICE, RECEIVE) == OSKHREIN_ACCEPTED && act(&monitor, BOB, PREPARE) == OSKHREIN_ACCEPTED);
    CHECK(grant(&monitor, BOB, MANAGER) == OSKHREIN_ACCEPTED && act(&monitor, BOB, APPROVE) == OSKHREIN_ACCEPTED);
    CHECK(act(&monitor, ALICE, ISSUE) == OSKHREIN_ACCEPTED && monitor.instance.state == 4);
    check(close_it(&monitor) == OSKHREIN_NOT_SATISFIED, "in a final state, but not satisfied");
}

/* Who may act, for each action; the workspace is that of the last user whom permissions and workflow let through. */
static void masks(void)
{
    static uint32_t trial[OSKHREIN_WORKSPACE_WORDS];
    struct oskhrein_monitor monitor = OSKHREIN_BLANK;
    struct oskhrein_monitor copy;

    CHECK(open_payment(&monitor, POLICY_F, 10) == OSKHREIN_ACCEPTED);
    copy = monitor;
    mark_workspace();
    CHECK(act(&copy, ALICE, RECEIVE) == OSKHREIN_ACCEPTED);
    memcpy(trial, workspace, sizeof trial);
    mark_workspace();
    CHECK(enabled(&monitor, PREPARE) == 0 && enabled(&monitor, APPROVE) == 0 && enabled(&monitor, 64) == 0);
    CHECK(is_marked());
    CHECK(enabled(&monitor, RECEIVE) == 1 << ALICE && memcmp(trial, workspace, sizeof trial) == 0);
    CHECK(act(&monitor, ALICE, RECEIVE) == OSKHREIN_ACCEPTED);
    CHECK(enabled(&monitor, RECEIVE) == 0 && enabled(&monitor, PREPARE) == 1 << BOB);
    CHECK(grant(&monitor, CLAIRE, ACCOUNTANT) == OSKHREIN_ACCEPTED);
    CHECK(enabled(&monitor, PREPARE) == (1 << BOB | 1 << CLAIRE));
}

/* A monitor whose workflow, state or permissions are not as they must be. */
static void malformed(void)
{
    struct oskhrein_monitor monitor = OSKHREIN_BLANK;

    CHECK(open_payment(&monitor, POLICY_F, 10) == OSKHREIN_ACCEPTED);
    monitor.instance.state = 4;
    CHECK(close_it(&monitor) == OSKHREIN_NOT_SATISFIED);
    monitor.instance.state = 5;
    CHECK(close_it(&monitor) == OSKHREIN_MONITOR);
    monitor.instance.state = 0;
    monitor.instance.workflow.transitions[7].next = 1;
    CHECK(close_it(&monitor) == OSKHREIN_MONITOR);
    monitor.instance.workflow.transitions[7].next = 0;
    monitor.configuration.permissions[3] = 1;
    CHECK(close_it(&monitor) == OSKHREIN_MONITOR);
    monitor.configuration.permissions[3] = 0;
    monitor.instance.workflow.states = 0;
    CHECK(close_it(&monitor) == OSKHREIN_MONITOR);
    CHECK(opened(&monitor, POLICY_F, 10, PERMISSIONS, 0, WORKFLOW, 0) == OSKHREIN_ACCEPTED);
    monitor.instance.state = 1;
    CHECK(close_it(&monitor) == OSKHREIN_MONITOR);
}

int main(void)
{
    opening();
    refusals();
    payment();
    alone();
    masks();
    malformed();
    return report();
}
