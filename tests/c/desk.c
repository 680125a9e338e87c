/* A quote under "one counts, another approves": apart(role 0, role 1). */
#include <stdio.h>

#include "oskhrein.h"

static uint32_t workspace[OSKHREIN_WORKSPACE_WORDS];

/* Who may act is kept beside the quote and asked for anew after 0; any other answer leaves it right. */
static unsigned act(struct oskhrein_monitor *quote, uint16_t *enabled, uint8_t user)
{
    uint32_t action = oskhrein_event_word(OSKHREIN_EVENT_ACTION, user, 0);
    unsigned code = oskhrein_event(quote, action, workspace, OSKHREIN_WORKSPACE_WORDS);
    if (code == OSKHREIN_ACCEPTED)
        code = oskhrein_enabled(quote, 0, workspace, OSKHREIN_WORKSPACE_WORDS, enabled);
    return code;
}

/* The status is kept in the quote, and may be asked for whenever the screen is drawn. */
static void show(const struct oskhrein_monitor *quote, uint16_t enabled)
{
    printf("status %c, may act:", oskhrein_status(quote));
    for (unsigned user = 0; user < OSKHREIN_MAX_USERS; user++)
        if (enabled >> user & 1)
            printf(" %u", user);
    printf("\n");
}

int main(void)
{
    const uint32_t policy[] = {
        oskhrein_policy_word(OSKHREIN_KIND_APART, 0),
        oskhrein_policy_word(OSKHREIN_KIND_ROLE, 0),
        oskhrein_policy_word(OSKHREIN_KIND_ROLE, 1),
    };
    const uint16_t roles[] = {1 << 0, 1 << 0 | 1 << 1}; /* user 0 counts; user 1 counts and approves */
    const uint8_t none[1] = {0};
    struct oskhrein_monitor quote = OSKHREIN_BLANK;
    uint16_t enabled = 0; /* bit u for user u */
    uint8_t place = 0;

    if (oskhrein_version() != OSKHREIN_VERSION)
        return 1; /* the library is not this header's */
    /* no permissions and no workflow: two empty parts, whose pointers are not null all the same */
    if (oskhrein_open(&quote, 2, 2, policy, 3, roles, 2, none, 0, none, 0, &place) != OSKHREIN_ACCEPTED)
        return 1; /* with 1 to 4, place says which word of the policy is at fault */
    if (oskhrein_enabled(&quote, 0, workspace, OSKHREIN_WORKSPACE_WORDS, &enabled) != OSKHREIN_ACCEPTED)
        return 1;
    show(&quote, enabled);
    printf("user 1 acts: %u\n", act(&quote, &enabled, 1));
    show(&quote, enabled);
    printf("user 1 acts again: %u\n", act(&quote, &enabled, 1));
    show(&quote, enabled);
    printf("user 0 acts: %u\n", act(&quote, &enabled, 0));
    show(&quote, enabled);
    return 0;
}
