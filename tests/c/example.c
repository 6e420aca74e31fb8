/* Opens the bench card K1 of docs/CARD.md, shows what may be pressed and what a press would change, presses as a program would, and
 * prints what the calls answer. */
#include <stdio.h>
#include <string.h>
#include "stakestalk.h"

static const uint8_t card[] = {
    0x04, 0x01, 0x01, 0x02, 0x01, 0x04, 0x02, 0x0E, 0x01, 0x00, 0x00, 0x01, 0x00, 0x00, 0x01, 0x01, 0x00, 0x0F, 0x03,
    0x03, 0x01, 0x00, 0x02, 0x00, 0x01, 0x03, 0x02, 0x02, 0x01, 0x00, 0x02, 0x00, 0x01, 0x02, 0x00, 0x00, 0x02, 0x00,
    0x02, 0x00, 0x06, 0x00, 0x00, 0x00, 0x01, 0x02, 0x00, 0x02, 0x02, 0x01, 0x02, 0x03, 0x02, 0x03, 0x03,
};
static uint8_t state[STAKESTALK_STATE_BYTES], out[STAKESTALK_OUTPUT_BYTES];
static size_t count;

/* Presses, and keeps the count that goes with the state: a refused press leaves both as they were. */
static void press(size_t schema, const uint8_t *objects, size_t objects_len) {
    int32_t answer = stakestalk_press(card, sizeof card, state, sizeof state, count, schema, objects, objects_len);
    if (answer >= 0)
        count = (size_t)answer;
    printf("press schema %zu: %d, and %zu facts\n", schema, answer, count);
}

/* Shows every open press, from none until the end. The number answered says the next time that a press is given. */
static int32_t show_open(void) {
    uint8_t given[STAKESTALK_FOUND_BYTES] = {0}, found[STAKESTALK_FOUND_BYTES];
    int32_t answer = 0;
    while ((answer = stakestalk_next_open(card, sizeof card, state, sizeof state, count, answer, given[0], given + 1,
                                          (size_t)answer, found)) > 0) {
        printf("open schema %d :", found[0]);
        for (int32_t role = 1; role <= answer; role++)
            printf(" %d", found[role]);
        printf("\n");
        memcpy(given, found, sizeof given);
    }
    return answer;
}

/* The next open press after one, which need not be open: the answer, and what is written beside it. */
static void show_after(int32_t given, size_t schema, const uint8_t *objects, size_t objects_len) {
    uint8_t found[STAKESTALK_FOUND_BYTES] = {9, 9, 9, 9, 9, 9, 9};
    int32_t answer = stakestalk_next_open(card, sizeof card, state, sizeof state, count, given, schema, objects, objects_len, found);
    printf("next open %d :", answer);
    for (size_t i = 0; i < sizeof found; i++)
        printf(" %d", found[i]);
    printf("\n");
}

/* Some facts of a state, of which there are `number`. */
static void show_facts(const uint8_t *facts, size_t number) {
    for (size_t i = 0; i < number; i++) {
        const uint8_t *fact = facts + STAKESTALK_FACT_BYTES * i;
        printf("%d %d %d %d\n", fact[0], fact[1], fact[2], fact[3]);
    }
}

/* Shows what a press would take out and put in; the state stays as it is. */
static void preview(size_t schema, const uint8_t *objects, size_t objects_len, uint8_t *changes) {
    int32_t answer = stakestalk_preview(card, sizeof card, state, sizeof state, count, schema, objects, objects_len, changes);
    printf("preview of schema %zu: %d\n", schema, answer);
    if (answer < 0)
        return;
    const uint8_t *going = changes + STAKESTALK_CHANGES_GOING, *coming = changes + STAKESTALK_CHANGES_COMING;
    printf("%d would go\n", going[0]);
    show_facts(going + 1, going[0]);
    printf("%d would come\n", coming[0]);
    show_facts(coming + 1, coming[0]);
}

/* Does the press that was shown, if it would still change the same. As after a press, the count stays where it is refused. */
static void commit(const uint8_t *changes) {
    int32_t answer = stakestalk_commit(card, sizeof card, state, sizeof state, count, changes);
    if (answer >= 0)
        count = (size_t)answer;
    printf("commit %d, and %zu facts\n", answer, count);
}

int main(void) {
    uint8_t changes[STAKESTALK_CHANGES_BYTES];
    const uint8_t first[] = {0}, three[] = {0, 2, 3}, twice[] = {0, 2, 2};

    if (stakestalk_version() != STAKESTALK_VERSION) {
        printf("the header is of version %d, the library of version %d\n", STAKESTALK_VERSION, stakestalk_version());
        return 1;
    }
    printf("check %d\n", stakestalk_check(card, sizeof card));
    printf("check of no bytes %d\n", stakestalk_check(card, 0));

    int32_t answer = stakestalk_initial(card, sizeof card, state, sizeof state);
    if (answer < 0)
        return 1;
    count = (size_t)answer;
    printf("initial %zu\n", count);
    if (show_open() < 0)
        return 1;
    show_after(0, 9, twice, 0);             /* none is given, so that the rest is not looked at */
    show_after(-1, 0, first, sizeof first); /* any other number says that one is given */
    show_after(1, 1, three, sizeof three);  /* not open, but a press; nothing comes after it */
    show_after(1, 1, twice, sizeof twice);  /* refused: one object in two roles */
    press(1, three, sizeof three); /* refused: object 0 is not armed yet */
    press(0, first, sizeof first);
    if (show_open() < 0)
        return 1;
    press(1, twice, sizeof twice); /* refused: one object in two roles */
    press(1, three, sizeof three);
    show_facts(state, count);

    /* The presses of K3 have left idle(0), idle(1), holds(0,3), holds(1,2), sample(2) and sample(3). */
    preview(1, three, sizeof three, changes); /* refused, as the press would be: object 0 is not armed */
    preview(0, first, sizeof first, changes);
    changes[STAKESTALK_CHANGES_OBJECTS + 1] = 1;
    commit(changes); /* refused: on object 1 the press is allowed, but changes other facts than are listed */
    changes[STAKESTALK_CHANGES_OBJECTS + 1] = 0;
    commit(changes); /* what was shown */
    commit(changes); /* refused: what was shown is outdated, since object 0 is not idle any more */
    show_facts(state, count);

    int32_t length = stakestalk_rewrite(card, sizeof card, out, sizeof out);
    printf("rewrite %d of %zu\n", length, sizeof card);
    printf("rewrite to a short buffer %d\n", stakestalk_rewrite(card, sizeof card, out, sizeof out - 1));

    for (size_t number = 0;; number++) {
        length = stakestalk_section(card, sizeof card, number, out, sizeof out);
        if (length == -STAKESTALK_REFUSED_SECTION)
            break;
        if (length < 0)
            return 1;
        printf("section %zu\n%.*s", number, (int)length, (const char *)out);
    }
    return 0;
}
