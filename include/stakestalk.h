/* Stakestalk: press-table analyser. C interface of the proved library, crates/capi/out/libcapi.a.
 *
 * The library is x86-64 code for Linux, in the calling convention of that system, as the Rattle toolchain writes it
 * (target x86_64-unknown-linux-gnu). Of the C library it uses memcpy and memset, and no heap, no files, no global data.
 *
 * What the bytes of a card mean, what each refusal says and how the listing is read is in docs/CARD.md.
 *
 * Answers. Every function that takes a card answers a number: nothing negative when the call is accepted, else minus the
 * number of the refusal, one of the names STAKESTALK_REFUSED_.. below. A refused call has changed no byte.
 *
 * Lent bytes. A run of bytes may have any content and any length, also 0, where the pointer is not read through but must not be
 * null. Runs must not overlap, except that runs which are only read may. No function keeps a pointer, and none uses anything but
 * what is lent to it: calls on different bytes may run at once.
 *
 * Stack. Tables are kept on the stack. STAKESTALK_STACK_.. is a size that is enough for each call, measured and not proved
 * (tests/c/stack); STAKESTALK_STACK is enough for any of them. */
#ifndef STAKESTALK_H
#define STAKESTALK_H

#include <stddef.h>
#include <stdint.h>

#ifdef __cplusplus
extern "C" {
#endif

/* The version of this header. CHANGELOG.md says what each version changed; a change of an answer or of the card raises it. */
#define STAKESTALK_VERSION_MAJOR 0
#define STAKESTALK_VERSION_MINOR 3
#define STAKESTALK_VERSION_PATCH 0
#define STAKESTALK_VERSION (STAKESTALK_VERSION_MAJOR * 10000 + STAKESTALK_VERSION_MINOR * 100 + STAKESTALK_VERSION_PATCH)

/* Sizes of buffers, in bytes. */
#define STAKESTALK_STATE_BYTES 4096   /* the least buffer for a state */
#define STAKESTALK_OUTPUT_BYTES 65536 /* the least buffer for a section or a rewritten card */
#define STAKESTALK_FACT_BYTES 4       /* one fact of a state: predicate, objects, 255 for missing arguments */
#define STAKESTALK_FOUND_BYTES 7      /* a press that is found: schema, objects, 0 for missing objects */
#define STAKESTALK_CHANGES_BYTES 74   /* a press and what it would change */

/* The parts of these 74 bytes, each by its first byte; unused places are 0. */
#define STAKESTALK_CHANGES_SCHEMA 0   /* the schema of the press */
#define STAKESTALK_CHANGES_OBJECTS 1  /* the number of its objects, then 6 places of a byte each */
#define STAKESTALK_CHANGES_GOING 8    /* the number of facts that would go, then 8 places for them, as in a state */
#define STAKESTALK_CHANGES_COMING 41  /* the number of facts that would newly come, then 8 places for them */

/* Stack that is enough for a call, in bytes, and for any of them. `tests/c/stack --write` measures them anew. */
#define STAKESTALK_STACK_CHECK 24576
#define STAKESTALK_STACK_INITIAL 28672
#define STAKESTALK_STACK_PRESS 28672
#define STAKESTALK_STACK_NEXT_OPEN 28672
#define STAKESTALK_STACK_PREVIEW 28672
#define STAKESTALK_STACK_COMMIT 28672
#define STAKESTALK_STACK_REWRITE 28672
#define STAKESTALK_STACK_SECTION 135168
#define STAKESTALK_STACK STAKESTALK_STACK_SECTION

/* The refusals, by number. An answer is minus one of these. */
enum stakestalk_refusal {
    /* of a card, in the order in which they are checked */
    STAKESTALK_REFUSED_CARD_ENDS = 1,      /* the card ends where a byte is due */
    STAKESTALK_REFUSED_PREDICATES = 2,     /* the predicate count or an arity is out of range */
    STAKESTALK_REFUSED_OBJECTS = 3,        /* the object count is 0 or over 64 */
    STAKESTALK_REFUSED_SCHEMAS = 4,        /* the schema count is over 32 */
    STAKESTALK_REFUSED_ROLES = 5,          /* a high map bit is set, or a role count is outside 2 to 6 */
    STAKESTALK_REFUSED_LIST = 6,           /* a list count is outside 1 to 8 */
    STAKESTALK_REFUSED_ATOM = 7,           /* an atom has an unknown predicate or role */
    STAKESTALK_REFUSED_ATOM_ORDER = 8,     /* an atom is not above the one before */
    STAKESTALK_REFUSED_DELETE = 9,         /* a deleted atom is no precondition */
    STAKESTALK_REFUSED_ADD = 10,           /* an added atom is a precondition */
    STAKESTALK_REFUSED_FACTS = 11,         /* the fact count is over 512 */
    STAKESTALK_REFUSED_FACT = 12,          /* a fact has an unknown predicate or object */
    STAKESTALK_REFUSED_FACT_ORDER = 13,    /* a fact is not above the one before */
    STAKESTALK_REFUSED_TRAILING = 14,      /* bytes follow the last fact */
    /* of a state and a press */
    STAKESTALK_REFUSED_STATE = 15,         /* the state is not well formed, or its buffer is under 4,096 bytes */
    STAKESTALK_REFUSED_SCHEMA = 16,        /* the press names no schema of the card */
    STAKESTALK_REFUSED_BINDING = 17,       /* more or fewer objects than roles, or an unknown object */
    STAKESTALK_REFUSED_SAME_OBJECT = 18,   /* two roles have the same object */
    STAKESTALK_REFUSED_PRECONDITION = 19,  /* a precondition is not in the state */
    STAKESTALK_REFUSED_STATE_FULL = 20,    /* the new state would have over 1,024 facts */
    /* of an output buffer and a section number */
    STAKESTALK_REFUSED_OUTPUT = 21,        /* the output buffer is under 65,536 bytes */
    STAKESTALK_REFUSED_SECTION = 22,       /* the section number is past the last section */
    /* of a commit */
    STAKESTALK_REFUSED_CHANGES_DIFFER = 23 /* the press would take out or put in other facts than are listed */
};

/* The version of the library that is linked, as STAKESTALK_VERSION has it. */
int32_t stakestalk_version(void);

/* Reads a card.
 * Answers 0 if it is accepted, else -1 to -14. Writes nothing. */
int32_t stakestalk_check(const uint8_t *card, size_t card_len);

/* Writes the opening state of a card: its facts, four bytes each, from byte 0 of state, then 0 up to byte 4,096.
 * Bytes past 4,096 stay as they are.
 * Answers the number of facts, 0 to 512, else -1 to -14, or -15 if state_len is under 4,096. */
int32_t stakestalk_initial(const uint8_t *card, size_t card_len, uint8_t *state, size_t state_len);

/* Presses: applies schema number `schema` to the objects, one byte for each role in order, in the state of `count` facts.
 * Takes the deletes out and puts the adds in; after the last fact there is 0 up to byte 4,096, bytes past it stay as they are.
 * Answers the new number of facts, 0 to 1,024, else -1 to -20.
 * A refused press leaves the state, so the count before it stays valid. Keep it:
 *
 *     int32_t answer = stakestalk_press(card, card_len, state, state_len, count, schema, objects, objects_len);
 *     if (answer >= 0)
 *         count = (size_t)answer;
 *     else
 *         refused(-answer);
 */
int32_t stakestalk_press(const uint8_t *card, size_t card_len, uint8_t *state, size_t state_len, size_t count, size_t schema,
                         const uint8_t *objects, size_t objects_len);

/* Finds the next open press after a given one. A press is open if stakestalk_press would accept it in the state of `count` facts; open
 * presses are ordered by schema number, then by the objects of the roles in order. The given press has `schema` and `objects` and need
 * not be open. Where `given` is 0 none is given, `schema` and `objects` are not looked at, and the first open press is found; any other
 * number says that one is given.
 * Answers the number of objects of the press found, 1 to 6, or 0 at the end, where no open press is left, else -1 to -18.
 * Where a press is found, 7 bytes are written at `found`: the schema, a byte for each object, and 0 past the objects. Else `found` stays
 * as it is. The state is only read.
 * From none until the end each open press is found just once. What was answered says the next time that a press is given:
 *
 *     uint8_t given[STAKESTALK_FOUND_BYTES] = {0}, found[STAKESTALK_FOUND_BYTES];
 *     int32_t answer = 0;
 *     while ((answer = stakestalk_next_open(card, card_len, state, state_len, count, answer, given[0], given + 1, (size_t)answer,
 *                                           found)) > 0) {
 *         show(found[0], found + 1, (size_t)answer);
 *         memcpy(given, found, sizeof given);
 *     }
 */
int32_t stakestalk_next_open(const uint8_t *card, size_t card_len, const uint8_t *state, size_t state_len, size_t count, int32_t given,
                             size_t schema, const uint8_t *objects, size_t objects_len, uint8_t *found);

/* Shows what a press would do: answers as stakestalk_press with the same arguments would, and alters no byte of the state.
 * Answers the number of facts that the press would leave, 0 to 1,024, else -1 to -20.
 * Where the press would be accepted, 74 bytes are written at `changes`: the press, the facts that would be taken out of the state, and
 * those that would newly be put in. Both lists have the form and the order of a state; an added fact that is in the state already is in
 * neither. Else `changes` stays as it is. */
int32_t stakestalk_preview(const uint8_t *card, size_t card_len, const uint8_t *state, size_t state_len, size_t count, size_t schema,
                           const uint8_t *objects, size_t objects_len, uint8_t *changes);

/* Commits to what was shown: does the press of the 74 bytes at `changes`, if in this state the same facts would go and the same would
 * come. Straight after stakestalk_preview it is stakestalk_press, answer and every byte.
 * Answers the new number of facts, 0 to 1,024, else -1 to -20 as the press would, or then -23 where other facts would go or come than are
 * listed. As after a press, keep the count where it is refused.
 * All is worked out anew from card and state, so the 74 bytes may be any. More than 6 objects are refused as too many; lists that
 * differ in a byte, in order or in number, with more than 8 facts too, by -23. Places past the numbers are not looked at.
 *
 *     uint8_t changes[STAKESTALK_CHANGES_BYTES];
 *     int32_t answer = stakestalk_preview(card, card_len, state, state_len, count, schema, objects, objects_len, changes);
 *     if (answer >= 0 && wanted(changes))
 *         answer = stakestalk_commit(card, card_len, state, state_len, count, changes);
 */
int32_t stakestalk_commit(const uint8_t *card, size_t card_len, uint8_t *state, size_t state_len, size_t count,
                          const uint8_t *changes);

/* Writes one section of the card's listing as text, from byte 0 of out; bytes past the text stay as they are.
 * Sections 0 to n-1 are those of the n spaces, n is the closing one.
 * Answers the length, else -1 to -14, -21 if out_len is under 65,536, -22 if there is no such section. */
int32_t stakestalk_section(const uint8_t *card, size_t card_len, size_t number, uint8_t *out, size_t out_len);

/* Reads a card into a table and writes the table as a card again, from byte 0 of out; bytes past it stay as they are.
 * Answers the length, which is card_len, else -1 to -14, or -21 if out_len is under 65,536. What it writes are the card's bytes. */
int32_t stakestalk_rewrite(const uint8_t *card, size_t card_len, uint8_t *out, size_t out_len);

#ifdef __cplusplus
}
#endif

#endif
