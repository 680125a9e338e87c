/* The status that a monitor keeps, through the header and the static library, from C and from C++: what sets it, what leaves it, that
 * neither the status nor a close needs a workspace, and what of it is malformed. */
#include "oskhrein.h"

#include "check.h"

#include <stddef.h>
#include <stdint.h>
#include <string.h>

#define GUARD 0xa5a5a5a5u
#define WHOLE ((size_t)OSKHREIN_WORKSPACE_WORDS)

/* One word more than a whole one, so that shorter and longer ones can be lent. */
static uint32_t workspace[OSKHREIN_WORKSPACE_WORDS + 1];

/* Some count, another approves: apart(plus role 0, role 1), for a counter, an approver and one without a role. */
static const uint32_t POLICY[] = {0x09000000, 0x05000000, 0x02000000, 0x02000001};
static const uint16_t ROWS[] = {1, 2, 0};
static const uint8_t NOTHING[1] = {0};

/* Event words. */
#define COUNT 0x01000000u
#define APPROVE 0x01000100u
#define CLOSE 0x04000000u

/* A quote at each step, which main makes first. */
static struct oskhrein_monitor opened, counted, complete, closed;

static uint8_t event(struct oskhrein_monitor *monitor, uint32_t word)
{
    return oskhrein_event(monitor, word, workspace, WHOLE);
}

/* The letter in the monitor, or a blank where the call answers another. */
static char kept(const struct oskhrein_monitor *monitor)
{
    return oskhrein_status(monitor) == monitor->instance.status ? (char)monitor->instance.status : ' ';
}

/* An opening, accepted actions and an accepted close set it. */
static void sets_it(void)
{
    uint8_t place = 0;

    CHECK(oskhrein_open(&opened, 3, 2, POLICY, 4, ROWS, 3, NOTHING, 0, NOTHING, 0, &place) == OSKHREIN_ACCEPTED);
    CHECK(kept(&opened) == 'o');
    counted = opened;
    CHECK(event(&counted, COUNT) == OSKHREIN_ACCEPTED && kept(&counted) == 'o');
    complete = counted;
    CHECK(event(&complete, APPROVE) == OSKHREIN_ACCEPTED && kept(&complete) == 'c');
    closed = complete;
    CHECK(event(&closed, CLOSE) == OSKHREIN_ACCEPTED && kept(&closed) == 'd' && closed.instance.closed == 1);
}

/* Nothing else touches it: not even where nobody holds the role any more in which they acted. */
static void leaves_it(void)
{
    static const uint32_t accepted[] = {0x03000000, 0x03000101, 0x02000001, 0x02000200};
    static const uint32_t refused[] = {COUNT, 0x01000300, 0x05000000, 0x04000001, 0};
    struct oskhrein_monitor monitor = complete;

    for (size_t i = 0; i < sizeof accepted / sizeof *accepted; i++) {
        CHECK(event(&monitor, accepted[i]) == OSKHREIN_ACCEPTED && kept(&monitor) == 'c');
    }
    for (size_t i = 0; i < sizeof refused / sizeof *refused; i++) {
        CHECK(event(&monitor, refused[i]) != OSKHREIN_ACCEPTED && kept(&monitor) == 'c');
    }
    check(event(&monitor, CLOSE) == OSKHREIN_ACCEPTED, "a close goes by what was noted");
    CHECK(event(&monitor, COUNT) == OSKHREIN_CLOSED && kept(&monitor) == 'd');
}

static int is_marked(void)
{
    for (size_t i = 0; i <= WHOLE; i++) {
        if (workspace[i] != GUARD) {
            return 0;
        }
    }
    return 1;
}

/* Whether a word is answered so in a workspace of this length and leaves that alone, and where it is refused the monitor too. */
static int answers(struct oskhrein_monitor monitor, uint32_t word, size_t n_workspace, uint8_t want)
{
    struct oskhrein_monitor after = monitor;

    for (size_t i = 0; i <= WHOLE; i++) {
        workspace[i] = GUARD;
    }
    return oskhrein_event(&after, word, workspace, n_workspace) == want && is_marked() &&
           (want == OSKHREIN_ACCEPTED || memcmp(&after, &monitor, sizeof after) == 0);
}

static struct oskhrein_monitor with_letter(struct oskhrein_monitor monitor, uint8_t mark, uint8_t letter)
{
    monitor.instance.closed = mark;
    monitor.instance.status = letter;
    return monitor;
}

/* Words of kind 4, closes or not, need no workspace: 15, 10, 7 and 11 are answered in any length, and nothing is written. */
static void needs_no_workspace(void)
{
    static const size_t lengths[] = {0, 1, WHOLE - 1, WHOLE, WHOLE + 1};
    static const uint32_t no_events[] = {0x04000001, 0x04000100, 0x04010000, 0x04ffffff};

    for (size_t i = 0; i < sizeof lengths / sizeof *lengths; i++) {
        CHECK(answers(with_letter(complete, 0, 0), CLOSE, lengths[i], OSKHREIN_MONITOR));
        CHECK(answers(closed, CLOSE, lengths[i], OSKHREIN_CLOSED));
        CHECK(answers(counted, CLOSE, lengths[i], OSKHREIN_NOT_SATISFIED));
        CHECK(answers(complete, CLOSE, lengths[i], OSKHREIN_ACCEPTED));
        for (size_t k = 0; k < sizeof no_events / sizeof *no_events; k++) {
            CHECK(answers(with_letter(complete, 0, 0), no_events[k], lengths[i], OSKHREIN_MONITOR));
            CHECK(answers(closed, no_events[k], lengths[i], OSKHREIN_CLOSED));
            CHECK(answers(complete, no_events[k], lengths[i], OSKHREIN_MALFORMED));
        }
    }
}

/* Words of every other kind need a whole one, before all else. */
static void others_need_it(void)
{
    static const uint32_t words[] = {0, COUNT, 0x01000300, 0x02000000, 0x03000000, 0x05000000, 0x84000000, 0xff000000};

    for (size_t i = 0; i < sizeof words / sizeof *words; i++) {
        CHECK(answers(complete, words[i], 0, OSKHREIN_WORKSPACE));
        CHECK(answers(complete, words[i], WHOLE - 1, OSKHREIN_WORKSPACE));
        CHECK(answers(with_letter(complete, 0, 0), words[i], WHOLE - 1, OSKHREIN_WORKSPACE));
        CHECK(answers(closed, words[i], WHOLE - 1, OSKHREIN_WORKSPACE));
    }
}

/* Whether every call on a monitor answers 15 and leaves everything alone. */
static int is_malformed(struct oskhrein_monitor monitor)
{
    uint16_t users = 0xa5a5;
    return oskhrein_status(&monitor) == OSKHREIN_MONITOR && answers(monitor, CLOSE, 0, OSKHREIN_MONITOR) &&
           answers(monitor, COUNT, WHOLE, OSKHREIN_MONITOR) && answers(monitor, 0x02000000, WHOLE, OSKHREIN_MONITOR) &&
           oskhrein_enabled(&monitor, 0, workspace, WHOLE, &users) == OSKHREIN_MONITOR && users == 0xa5a5;
}

static void malformed(void)
{
    int unknown = 1;
    int marked = 1;
    int well = 1;

    for (unsigned byte = 0; byte < 256; byte++) {
        uint8_t own = (uint8_t)byte;
        if (own != 'o' && own != 'c' && own != 'd') {
            unknown &= is_malformed(with_letter(counted, 0, own)) && is_malformed(with_letter(counted, 1, own));
        }
        if (own != 0) {
            marked &= is_malformed(with_letter(counted, own, 'o')) && is_malformed(with_letter(complete, own, 'c'));
            well &= !is_malformed(with_letter(opened, own, 'd')) && !is_malformed(with_letter(complete, own, 'd'));
        }
    }
    check(unknown, "a letter that is none of the three");
    check(marked, "every closed mark asks for d");
    check(well, "d goes with every closed mark, with an action or without");
    CHECK(is_malformed(with_letter(complete, 0, 'd')) && is_malformed(with_letter(opened, 0, 'd')));
    check(is_malformed(with_letter(opened, 0, 'c')), "complete, with no action");
    CHECK(!is_malformed(with_letter(counted, 0, 'c')) && !is_malformed(with_letter(complete, 0, 'o')));
}

/* On a monitor that no opening and events made, status and close follow the letter. */
static void by_hand(void)
{
    struct oskhrein_monitor monitor = with_letter(counted, 0, 'c');

    check(kept(&monitor) == 'c' && answers(monitor, CLOSE, 0, OSKHREIN_ACCEPTED), "c, though nobody has approved");
    CHECK(event(&monitor, COUNT) == OSKHREIN_ACCEPTED);
    check(kept(&monitor) == 'o', "an action works it out anew");
    monitor = with_letter(complete, 0, 'o');
    check(kept(&monitor) == 'o' && answers(monitor, CLOSE, 0, OSKHREIN_NOT_SATISFIED), "o, though the actions satisfy");
    CHECK(event(&monitor, COUNT) == OSKHREIN_ACCEPTED && kept(&monitor) == 'c');
}

/* A monitor as version 0.5.0 stored it, layout 3: two bytes for the number of words, then the number of actions and the mark. */
static struct oskhrein_monitor in_layout_3(struct oskhrein_monitor monitor)
{
    const uint16_t words = monitor.instance.words;
    const uint8_t rest[] = {monitor.instance.taken, monitor.instance.closed};
    unsigned char *at = (unsigned char *)&monitor.instance + offsetof(struct oskhrein_instance, words);

    memcpy(at, &words, sizeof words);
    memcpy(at + sizeof words, rest, sizeof rest);
    return monitor;
}

static void earlier_layout(void)
{
    static const struct oskhrein_monitor blank = OSKHREIN_BLANK;

    CHECK(is_malformed(in_layout_3(opened)));
    CHECK(is_malformed(in_layout_3(counted)));
    CHECK(is_malformed(in_layout_3(complete)));
    CHECK(is_malformed(in_layout_3(closed)));
    check(is_malformed(blank), "the blank monitor, the same in both layouts");
}

int main(void)
{
    sets_it();
    leaves_it();
    needs_no_workspace();
    others_need_it();
    malformed();
    by_hand();
    earlier_layout();
    return report();
}
