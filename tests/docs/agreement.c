/* Opens quotes under the policies that agreements print, and prints the policy of a quote. */
#include <stdio.h>
#include <string.h>

#include "oskhrein.h"

/* A quote of two users and two roles under the policy that a line of an agreement has. */
static unsigned agreed(struct oskhrein_monitor *quote, const char *line, uint8_t *place)
{
    const uint16_t roles[] = {1 << 0, 1 << 1};
    const uint8_t none[1] = {0};
    uint32_t words[OSKHREIN_MAX_WORDS]; /* so many are never too few */
    size_t n_words = 0;
    size_t n_line = strcspn(line, "\n"); /* the line's end is no part of the text */
    unsigned code = oskhrein_read_text(2, 2, line, n_line, words, OSKHREIN_MAX_WORDS, &n_words, place);

    if (code == OSKHREIN_ACCEPTED)
        code = oskhrein_open(quote, 2, 2, words, n_words, roles, 2, none, 0, none, 0, place);
    return code;
}

int main(void)
{
    const char *const lines[] = {"policy: (r0 apart r1)\n", "policy: (r0 apart r2)\n", "policy: (r0 apart r16)\n"};
    struct oskhrein_monitor quote = OSKHREIN_BLANK;
    char text[OSKHREIN_LONGEST_TEXT]; /* so many bytes are never too few */
    size_t length = 0;
    uint8_t place = 0;

    for (int i = 0; i < 3; i++) {
        unsigned code = agreed(&quote, lines[i], &place);
        if (OSKHREIN_WORD_COUNT <= code && code <= OSKHREIN_UNIT)
            printf("%u at word %u\n", code, place);
        else if (code != OSKHREIN_ACCEPTED)
            printf("%u\n", code);
        else if (oskhrein_write_text(2, 2, quote.instance.policy, quote.instance.words, text, OSKHREIN_LONGEST_TEXT, &length, &place) ==
                 OSKHREIN_ACCEPTED)
            printf("agreed, %.*s\n", (int)length, text); /* no NUL stands behind it */
    }
    return 0;
}
