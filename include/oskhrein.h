/*
 * Oskhrein, the separation-of-duty monitor, as a desk program links it: liboskhrein.a.
 *
 * A call keeps no state and allocates nothing; it reads and writes only what it is lent, and takes up to 128 KiB of stack. Every
 * answer but the two of oskhrein_version and oskhrein_layout is one byte.
 *
 * The caller owes, for every call:
 * - Each pointer is aligned, not null, and valid for its length, which counts elements and follows the pointer; an array of length 0
 *   needs a pointer too. What one call is lent does not overlap.
 * - A monitor is initialised, with any bytes: whatever they are, the call answers. OSKHREIN_BLANK and zeroed memory will do.
 *   oskhrein_open needs it too, though it replaces what it finds.
 * - Nobody else writes what a call is lent while it runs. Calls on separate memory may run at the same time.
 *
 * Everything else may be wrong: the call then answers a number.
 */
#ifndef OSKHREIN_H
#define OSKHREIN_H

#include <stddef.h>
#include <stdint.h>

/* The version of this header. oskhrein_version gives that of the library: it is to be OSKHREIN_VERSION. */
#define OSKHREIN_VERSION_MAJOR 0
#define OSKHREIN_VERSION_MINOR 8
#define OSKHREIN_VERSION_PATCH 0
#define OSKHREIN_VERSION (OSKHREIN_VERSION_MAJOR * 65536u + OSKHREIN_VERSION_MINOR * 256u + OSKHREIN_VERSION_PATCH)

/* The number of the layout of struct oskhrein_monitor, another one whenever the struct is another. Keep it beside a stored monitor, and
 * reload only what was stored under the same number: a monitor of an earlier one has no status, so open it anew and send its events
 * again. oskhrein_layout gives that of the library. */
#define OSKHREIN_LAYOUT 4

#ifdef __cplusplus
extern "C" {
#endif

/* The numbers, by who causes them. */
enum {
    OSKHREIN_ACCEPTED = 0,

    /* Policy author. A call that answers 1 to 4 gives the fault's place too: see oskhrein_open. */
    OSKHREIN_WORD_COUNT = 1, /* no word, or more than 31 */
    OSKHREIN_WORD = 2,       /* some word is not in the layout, names a role or user not declared, or is an empty set */
    OSKHREIN_TERM = 3,       /* the words are not exactly one term */
    OSKHREIN_UNIT = 4,       /* not or plus over a term that is no unit term */
    OSKHREIN_OPENING = 20,   /* a text does not begin with "policy: " */
    OSKHREIN_TEXT = 21,      /* what stands behind that is no term, or the text has more than 1,024 bytes */

    /* Personnel desk. */
    OSKHREIN_COUNTS = 5, /* users or roles not 1 to 16 */
    OSKHREIN_ROWS = 6,   /* role rows not one a user, or a role not declared */

    /* Author of permissions and workflow. */
    OSKHREIN_WORKFLOW = 19, /* one given without the other, or one not as oskhrein_open has it */

    /* Clerk who sends events or multisets. */
    OSKHREIN_MALFORMED = 7,       /* event word out of layout, or user or role not declared; a count above 0 for a user not declared */
    OSKHREIN_FULL = 8,            /* twelve actions taken already; a multiset of more than twelve */
    OSKHREIN_NOT_POSSIBLE = 9,    /* the actions with this one are not possible */
    OSKHREIN_CLOSED = 10,         /* the monitor is closed */
    OSKHREIN_NOT_SATISFIED = 11,  /* close, but the status is not 'c', or the workflow is in no final state */
    OSKHREIN_NOT_AUTHORIZED = 16, /* no role that the user holds gives the action */
    OSKHREIN_NO_TRANSITION = 17,  /* the workflow has no transition for the action in its present state */

    /* Program that calls. */
    OSKHREIN_WORKSPACE = 12, /* workspace below 8,192 words; never for a close */
    OSKHREIN_OUTPUT = 13,    /* output shorter than the policy, or than its text */
    OSKHREIN_CASE = 14,      /* case file malformed; no call of this header reads one */
    OSKHREIN_MONITOR = 15    /* monitor malformed: see oskhrein_event */
};

/* The letters, which are no numbers of refusals. */
enum {
    OSKHREIN_STATUS_CLOSED = 'd',
    OSKHREIN_STATUS_COMPLETE = 'c', /* not closed, and the taken actions satisfy the policy */
    OSKHREIN_STATUS_OPEN = 'o',     /* not closed, and they do not */
    OSKHREIN_YES = 'y',
    OSKHREIN_NO = 'n'
};

/*
 * Kinds of policy words: see oskhrein_open. The operand of all but a role and a set is 0. The number of a word's sides goes by its kind:
 * below 4 none, below 6 one, else two.
 */
enum {
    OSKHREIN_KIND_EVERYONE = 1,
    OSKHREIN_KIND_ROLE = 2, /* operand: the role's number */
    OSKHREIN_KIND_SET = 3,  /* operand: a mask of users, not zero, bit u for user u */
    OSKHREIN_KIND_NOT = 4,  /* no user without a role meets it */
    OSKHREIN_KIND_PLUS = 5,
    OSKHREIN_KIND_EITHER = 6,
    OSKHREIN_KIND_BOTH = 7,
    OSKHREIN_KIND_TOGETHER = 8,
    OSKHREIN_KIND_APART = 9
};

/* Kinds of events: see oskhrein_event. */
enum {
    OSKHREIN_EVENT_ACTION = 1,
    OSKHREIN_EVENT_GRANT = 2,
    OSKHREIN_EVENT_REVOKE = 3,
    OSKHREIN_EVENT_CLOSE = 4
};

/* A policy word. */
static inline uint32_t oskhrein_policy_word(uint8_t kind, uint16_t operand)
{
    return (uint32_t)kind << 24 | operand;
}

/* An event: a kind, the user, and the action's number or the role; a close has 0 for both. */
static inline uint32_t oskhrein_event_word(uint8_t kind, uint8_t user, uint8_t action_or_role)
{
    return (uint32_t)kind << 24 | (uint32_t)user << 8 | action_or_role;
}

/* Lengths. */
enum {
    OSKHREIN_MAX_WORDS = 31,
    OSKHREIN_MAX_USERS = 16,
    OSKHREIN_MAX_ROLES = 16,
    OSKHREIN_MAX_ACTIONS = 12,
    OSKHREIN_MAX_STATES = 16,
    OSKHREIN_MAX_TRANSITIONS = 64,
    OSKHREIN_WORKSPACE_WORDS = 8192,
    OSKHREIN_LONGEST_TEXT = 767, /* bytes of the longest text of a policy: an output of so many is never too short */
    OSKHREIN_MAX_TEXT = 1024     /* a text with more bytes is refused */
};

/* A configuration: the actions that each role gives (bit a for action a), the roles that each user holds (bit r for role r), and the
 * counts. Rows past the roles and past the users are zero. */
struct oskhrein_configuration {
    uint64_t permissions[OSKHREIN_MAX_ROLES];
    uint16_t user_roles[OSKHREIN_MAX_USERS];
    uint32_t users;
    uint32_t roles;
};

/* A taken action. Bit i of met: its user met the unit term that begins at policy word i when the action was taken. */
struct oskhrein_action {
    uint32_t user;
    uint32_t met;
};

/* A transition of a workflow: the action leads from the state to the next one. */
struct oskhrein_transition {
    uint8_t state;
    uint8_t action;
    uint8_t next;
};

/* A workflow: its transitions, its final states (bit s for state s), and how many states and transitions there are. Transitions past
 * their number are zero. One that is not given is all zero. */
struct oskhrein_workflow {
    struct oskhrein_transition transitions[OSKHREIN_MAX_TRANSITIONS];
    uint16_t final_states;
    uint8_t states;
    uint8_t count;
};

/* An instance: the policy, the taken actions in order of arrival, the workflow, the policy's word count, the number of the actions, the
 * closed mark: 0 is not closed, every other value closed, the letter of the status, and the workflow's present state. Words and places
 * past their numbers are zero. Without a workflow its state and the configuration's permissions are zero too. */
struct oskhrein_instance {
    uint32_t policy[OSKHREIN_MAX_WORDS];
    struct oskhrein_action actions[OSKHREIN_MAX_ACTIONS];
    struct oskhrein_workflow workflow;
    uint8_t words;
    uint8_t taken;
    uint8_t closed;
    uint8_t status;
    uint32_t state;
};

/* A monitor. It has no padding: each of its bytes is a field's, so it may be compared, hashed and stored as bytes. */
struct oskhrein_monitor {
    struct oskhrein_configuration configuration;
    struct oskhrein_instance instance;
};

/* What a monitor is initialised with: all zero. */
#ifdef __cplusplus
#define OSKHREIN_BLANK {}
#else
#define OSKHREIN_BLANK {0}
#endif

/* The struct is as the library has it, and its fields are all of it. A compiler of C99 or C++98 cannot say so. */
#define OSKHREIN_FIELDS \
    (OSKHREIN_MAX_ROLES * sizeof(uint64_t) + OSKHREIN_MAX_USERS * sizeof(uint16_t) + 2 * sizeof(uint32_t) + \
     OSKHREIN_MAX_WORDS * sizeof(uint32_t) + OSKHREIN_MAX_ACTIONS * 2 * sizeof(uint32_t) + \
     OSKHREIN_MAX_TRANSITIONS * 3 * sizeof(uint8_t) + sizeof(uint16_t) + 2 * sizeof(uint8_t) + 4 * sizeof(uint8_t) + \
     sizeof(uint32_t))
#if defined __cplusplus && __cplusplus >= 201103L
static_assert(sizeof(struct oskhrein_monitor) == 592, "a monitor has 592 bytes");
static_assert(sizeof(struct oskhrein_monitor) == OSKHREIN_FIELDS, "a monitor has no padding");
static_assert(alignof(struct oskhrein_monitor) == 8, "a monitor stands at a multiple of 8");
#elif defined __STDC_VERSION__ && __STDC_VERSION__ >= 201112L
_Static_assert(sizeof(struct oskhrein_monitor) == 592, "a monitor has 592 bytes");
_Static_assert(sizeof(struct oskhrein_monitor) == OSKHREIN_FIELDS, "a monitor has no padding");
_Static_assert(_Alignof(struct oskhrein_monitor) == 8, "a monitor stands at a multiple of 8");
#endif
#undef OSKHREIN_FIELDS

/*
 * The workspace: at least OSKHREIN_WORKSPACE_WORDS words; a close takes any number, even none. Where a call fills it, it speaks of n
 * actions, bit j of a mask standing for the one at place j, from 0. Word s, for each s below 2^n, holds in bit i whether the set with
 * mask s satisfies the term at policy word i; word 4096 + s holds the same for possible. Bits past the policy and the other words below
 * 8,192 are zero. Words from 8,192 on keep what they had.
 */

/*
 * Opens a monitor under a policy of n_words words, with one row of roles for each user, and with permissions and a workflow if they are
 * given.
 *
 * The policy is one term in prefix order: a word, then its sides. The kind is in bits 24 to 31 of a word, the operand in bits 0 to 15,
 * and bits 16 to 23 are zero: see the kinds above and oskhrein_policy_word.
 *
 * Permissions and workflow are given both or neither. For neither pass length 0 for both, with any pointers that are not null: every
 * action is then permitted, in any order, and a close asks for no final state.
 *   permissions  eight bytes a role, low first: bit a is set if the role gives action a, one of 0 to 63
 *   workflow     a byte that counts the states, 1 to 16; one that counts the transitions, 0 to 64; two bytes, low first, with bit s set
 *                if state s is final; then for each transition three bytes: its state, its action, its next state. The workflow starts
 *                in state 0.
 *
 * Answers OSKHREIN_ACCEPTED, or the first that applies of OSKHREIN_COUNTS, OSKHREIN_WORD_COUNT, OSKHREIN_WORD, OSKHREIN_TERM,
 * OSKHREIN_UNIT, OSKHREIN_ROWS and
 *   OSKHREIN_WORKFLOW    one of permissions and workflow has length 0 and the other does not; either has another length than it must; a
 *                        count is out of range; a transition or a final state names a state not declared; a transition's action is
 *                        above 63; two transitions have the same state and action
 *
 * Leaves in *place the place of a policy's fault, counted in words from 0:
 *   OSKHREIN_WORD_COUNT  0
 *   OSKHREIN_WORD        the first such word
 *   OSKHREIN_TERM        the first word left over after a whole term, or n_words where the words run out
 *   OSKHREIN_UNIT        the first such not or plus
 * Any other answer leaves *place as it was.
 *
 * Leaves in *monitor what was opened: the policy, the counts, the rows, permissions and workflow, zeros behind them, no action, in
 * state 0, not closed, status 'o'. A refusal leaves the blank monitor there, all zero, the status too. words, rows, permissions and
 * workflow are only read.
 */
uint8_t oskhrein_open(struct oskhrein_monitor *monitor, uint8_t users, uint8_t roles, const uint32_t *words, size_t n_words,
                      const uint16_t *rows, size_t n_rows, const uint8_t *permissions, size_t n_permissions, const uint8_t *workflow,
                      size_t n_workflow, uint8_t *place);

/*
 * One event on a monitor. The kind is in bits 24 to 31 of its word, bits 16 to 23 are zero, the user is in bits 8 to 15:
 *   1 action    bits 0 to 7 are the action's number; it is not kept, and without permissions and workflow not judged
 *   2 grant     bits 0 to 7 are a role; one held already is accepted and alters nothing
 *   3 revoke    bits 0 to 7 are a role; one not held is accepted and alters nothing
 *   4 close     all other bits are zero
 *
 * Answers OSKHREIN_ACCEPTED, or the first that applies of
 *   OSKHREIN_WORKSPACE      n_workspace below 8,192; never for a word of kind 4, whatever its other bits
 *   OSKHREIN_MONITOR        the monitor's policy, counts or rows would be refused; above twelve actions; an action by a user not
 *                           declared, or with a bit at a word that begins no unit term; permissions or workflow would be refused, or
 *                           the workflow has no such state as the present one; an unused place, policy word, row or transition not
 *                           zero, and without a workflow anything of it, its state or the permissions; a status other than 'o', 'c'
 *                           and 'd', one that is 'd' without the closed mark or not 'd' with it, or one that is not 'o' without the
 *                           mark and without an action
 *   OSKHREIN_CLOSED         whatever the word is
 *   OSKHREIN_MALFORMED
 *   OSKHREIN_NOT_AUTHORIZED an action only: permissions are given, and no role that the user holds now gives it; none gives one above 63
 *   OSKHREIN_NO_TRANSITION  an action only: a workflow is given, and has no transition for it in the present state
 *   OSKHREIN_FULL           an action only
 *   OSKHREIN_NOT_POSSIBLE   an action only
 *   OSKHREIN_NOT_SATISFIED  a close only: the status is not 'c', or a workflow is given and its present state is not final
 *
 * Leaves in *monitor, where it answers 0, what the event alters: an action the next place, their number, the workflow's state and the
 * status, 'c' if the taken actions with this one satisfy the policy, else 'o'; a grant or revocation one bit; a close the mark, which
 * is then 1, and the status, then 'd'. Any other answer leaves *monitor as it was.
 *
 * Leaves the workspace filled for the taken actions with the tried one after an action answered 0 or 9. After any other event or answer
 * it is as it was: a close never touches it.
 */
uint8_t oskhrein_event(struct oskhrein_monitor *monitor, uint32_t word, uint32_t *workspace, size_t n_workspace);

/*
 * The status of a monitor: the letter that it keeps. No action is judged and no workspace asked for, so that it may be asked for at each
 * keystroke.
 *
 * Answers OSKHREIN_MONITOR, as oskhrein_event does, else the monitor's letter. On a monitor that was opened, and altered by events alone,
 * that is OSKHREIN_STATUS_CLOSED if it is closed, else OSKHREIN_STATUS_COMPLETE if the taken actions satisfy the policy, else
 * OSKHREIN_STATUS_OPEN. On one that somebody wrote otherwise it is what was written, and a close goes by it too. The workflow's state
 * plays no part.
 *
 * *monitor is only read.
 */
uint8_t oskhrein_status(const struct oskhrein_monitor *monitor);

/*
 * Who may act on a monitor: the users whose action with this number oskhrein_event would answer with OSKHREIN_ACCEPTED now. Without
 * permissions and workflow it is the same for every number.
 *
 * Answers OSKHREIN_ACCEPTED, or the first that applies of OSKHREIN_WORKSPACE and OSKHREIN_MONITOR, as oskhrein_event does for an action.
 *
 * Leaves a mask of users in *users, bit u for user u; bits from the number of users on are zero. It is 0 for a closed monitor and
 * for one with twelve actions. A refusal leaves *users as it was. *monitor is only read.
 *
 * Leaves the workspace as oskhrein_event does for the action by the user with the highest number to whom neither
 * OSKHREIN_NOT_AUTHORIZED nor OSKHREIN_NO_TRANSITION applies, whether or not that user may act. Without such a user, on a closed monitor
 * or one with twelve actions, and after a refusal it is as it was.
 *
 * A program that keeps the masks for some actions asks anew after each event answered 0; an event with any other answer leaves them
 * right.
 */
uint8_t oskhrein_enabled(const struct oskhrein_monitor *monitor, uint8_t action, uint32_t *workspace, size_t n_workspace,
                         uint16_t *users);

/*
 * Whether a multiset of users satisfies a policy: user u occurs counts[u] times. The empty multiset does not.
 *
 * Answers OSKHREIN_YES or OSKHREIN_NO, or the first that applies of OSKHREIN_WORKSPACE, the refusals of oskhrein_open up to
 * OSKHREIN_ROWS in its order, OSKHREIN_MALFORMED (a count above 0 for a user not declared), OSKHREIN_FULL (more than twelve in all).
 *
 * Leaves in *place the place of a policy's fault, as oskhrein_open does. Any other answer leaves it as it was.
 *
 * Leaves the workspace filled for the multiset's actions, numbered by ascending user: action 0 is by the lowest user who occurs, and those
 * of one user are next to each other. So the same question leaves the same 8,192 words, whatever they held. A refusal leaves the
 * workspace as it was. words, rows and counts are only read.
 */
uint8_t oskhrein_satisfies(uint8_t users, uint8_t roles, const uint32_t *words, size_t n_words, const uint16_t *rows, size_t n_rows,
                           const uint8_t counts[OSKHREIN_MAX_USERS], uint32_t *workspace, size_t n_workspace, uint8_t *place);

/*
 * Writes the normal form of a policy: policies that differ only in the order or the grouping of operands have the same one.
 *
 * Answers OSKHREIN_ACCEPTED, or the first that applies of OSKHREIN_COUNTS, OSKHREIN_WORD_COUNT, OSKHREIN_WORD, OSKHREIN_TERM,
 * OSKHREIN_UNIT, OSKHREIN_OUTPUT (n_out below n_words).
 *
 * Leaves in *place the place of a policy's fault, as oskhrein_open does. Any other answer leaves it as it was.
 *
 * Leaves the normal form in the first n_words words of out; the rest of out, and after a refusal all of it, is as it was. words is
 * only read.
 */
uint8_t oskhrein_normal_form(uint8_t users, uint8_t roles, const uint32_t *words, size_t n_words, uint32_t *out, size_t n_out,
                             uint8_t *place);

/*
 * Reads a policy's text, and writes the policy's words.
 *
 * The text is the eight bytes "policy: ", the last a space, and then one term:
 *   all                  everyone
 *   r2                   a role
 *   {0,3,15}             a set: one or more users, each above the one before it
 *   not TERM
 *   plus TERM
 *   (TERM or TERM)       either
 *   (TERM both TERM)
 *   (TERM with TERM)     together
 *   (TERM apart TERM)
 * Numbers are 0 to 15, without a leading zero. Nothing else stands before, between or behind: no other space, no line end. n_text counts
 * the bytes; no NUL is looked for. A policy has one text only, that which oskhrein_write_text writes.
 *
 * Answers OSKHREIN_ACCEPTED, or the first that applies of
 *   OSKHREIN_OPENING     the eight bytes are missing
 *   OSKHREIN_TEXT        what stands behind them is not exactly one term, a number above 15 included; n_text above OSKHREIN_MAX_TEXT
 *   OSKHREIN_COUNTS
 *   OSKHREIN_WORD_COUNT  the term has more than 31 words
 *   OSKHREIN_WORD        a number up to 15 that is not declared
 *   OSKHREIN_UNIT
 *   OSKHREIN_OUTPUT      n_out below the number of the words
 * OSKHREIN_TERM never applies: what is read is one term.
 *
 * Leaves in *place the place of a policy's fault, as oskhrein_open does: a word's among the words, an operator's before its sides, not a
 * byte's in the text. Any other answer leaves it as it was.
 *
 * Leaves the words at the start of out, and how many they are in *written; the rest of out is as it was. A refusal leaves *written and
 * all of out as they were. text is only read.
 */
uint8_t oskhrein_read_text(uint8_t users, uint8_t roles, const char *text, size_t n_text, uint32_t *out, size_t n_out,
                           size_t *written, uint8_t *place);

/*
 * Writes a policy's text, as oskhrein_read_text reads it. To read what was written gives the same words, and to write what was read the
 * same text.
 *
 * Answers OSKHREIN_ACCEPTED, or the first that applies of OSKHREIN_COUNTS, OSKHREIN_WORD_COUNT, OSKHREIN_WORD, OSKHREIN_TERM,
 * OSKHREIN_UNIT, OSKHREIN_OUTPUT (n_out below the number of the text's bytes, which is at most OSKHREIN_LONGEST_TEXT).
 *
 * Leaves in *place the place of a policy's fault, as oskhrein_open does. Any other answer leaves it as it was.
 *
 * Leaves the text at the start of out, without a NUL behind it, and how many bytes it has in *written; the rest of out is as it was. A
 * refusal leaves *written and all of out as they were. words is only read.
 */
uint8_t oskhrein_write_text(uint8_t users, uint8_t roles, const uint32_t *words, size_t n_words, char *out, size_t n_out,
                            size_t *written, uint8_t *place);

/* The version of the library, as OSKHREIN_VERSION writes it. */
uint32_t oskhrein_version(void);

/* The number of the layout that the library has, as OSKHREIN_LAYOUT. A program that finds another one was compiled with the header of
 * another library, and must not lend it a monitor. */
uint32_t oskhrein_layout(void);

#ifdef __cplusplus
}
#endif

#endif
