/* The payment workflow of document 004, opened by what `case words c examples/example-7.txt` prints. */
#include <stdio.h>

#include "oskhrein.h"
#include "payment.h"

enum { RECEIVE = 1, PREPARE, APPROVE, ISSUE, REJECT, ACTIONS };

static uint32_t workspace[OSKHREIN_WORKSPACE_WORDS];
static struct oskhrein_monitor payment;
static uint16_t enabled[ACTIONS]; /* kept beside it: who may act, for each action that the desk shows */

static unsigned ask(void)
{
    unsigned code = OSKHREIN_ACCEPTED;
    for (uint8_t action = RECEIVE; action < ACTIONS && code == OSKHREIN_ACCEPTED; action++)
        code = oskhrein_enabled(&payment, action, workspace, OSKHREIN_WORKSPACE_WORDS, &enabled[action]);
    return code;
}

/* All masks are asked for anew after 0; any other answer leaves them right. */
static unsigned act(uint8_t user, uint8_t action)
{
    uint32_t word = oskhrein_event_word(OSKHREIN_EVENT_ACTION, user, action);
    unsigned code = oskhrein_event(&payment, word, workspace, OSKHREIN_WORKSPACE_WORDS);
    return code == OSKHREIN_ACCEPTED ? ask() : code;
}

int main(void)
{
    const uint16_t rows[] = {1 << 1, 1 << 0, 0}; /* a clerk, an accountant, and one without a role */
    uint8_t place = 0;

    if (oskhrein_open(&payment, 3, 3, policy, sizeof policy / sizeof *policy, rows, 3, permissions, sizeof permissions, workflow,
                      sizeof workflow, &place) != OSKHREIN_ACCEPTED)
        return 1; /* 19 if permissions or workflow are out of form */
    if (ask() != OSKHREIN_ACCEPTED)
        return 1;
    printf("user 1 prepares: %u\n", act(1, PREPARE));
    printf("user 0 receives: %u\n", act(0, RECEIVE));
    printf("may prepare: %u\n", enabled[PREPARE]);
    printf("user 1 prepares: %u\n", act(1, PREPARE));
    printf("user 1 approves: %u\n", act(1, APPROVE));
    printf("may approve: %u\n", enabled[APPROVE]);
    return 0;
}
