/* Asks which of a multiset's actions satisfy a policy, and whose they are. */
#include <stdio.h>

#include "oskhrein.h"

enum { USERS = 3 };

static uint32_t workspace[OSKHREIN_WORKSPACE_WORDS];

int main(void)
{
    const uint32_t policy[] = {
        oskhrein_policy_word(OSKHREIN_KIND_APART, 0),
        oskhrein_policy_word(OSKHREIN_KIND_ROLE, 0),
        oskhrein_policy_word(OSKHREIN_KIND_ROLE, 1),
    };
    const uint16_t roles[USERS] = {1 << 0, 1 << 0, 1 << 1};
    const uint8_t counts[OSKHREIN_MAX_USERS] = {2, 0, 1}; /* user 0 twice, user 2 once */
    unsigned user_of[12], n_actions = 0;
    uint8_t place = 0;

    unsigned answer = oskhrein_satisfies(USERS, 2, policy, 3, roles, USERS, counts, workspace, OSKHREIN_WORKSPACE_WORDS, &place);
    if (answer != OSKHREIN_YES && answer != OSKHREIN_NO)
        return 1;
    for (unsigned user = 0; user < USERS; user++) /* ascending, those of one user next to each other */
        for (unsigned n = 0; n < counts[user]; n++)
            user_of[n_actions++] = user;
    printf("%u actions: %c\n", n_actions, (int)answer);
    for (unsigned set = 0; set < 1u << n_actions; set++) {
        if ((workspace[set] & 1) == 0) /* bit 0 is the whole policy */
            continue;
        printf("satisfied by");
        for (unsigned action = 0; action < n_actions; action++)
            if (set >> action & 1)
                printf(" %u (user %u)", action, user_of[action]);
        printf("\n");
    }
    return 0;
}
