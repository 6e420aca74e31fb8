/* stack CARD...: how much stack each call takes at most, on the cards named, and whether include/stakestalk.h says enough.
 * Each call runs first on a stack of our own that was painted before; what it changed shows how deep it went.
 * A call may reserve a little more than it writes, so a figure for the header is rounded up to the next 4 KB, and 4 KB more.
 * Then it runs again on a stack of the size that the header says, below which there is a page that nobody may touch. */
#define _GNU_SOURCE
#include <pthread.h>
#include <stdio.h>
#include <stdlib.h>
#include <string.h>
#include <sys/mman.h>
#include "stakestalk.h"

enum { PAINT = 0xA5, STACK = 1 << 20, PAGE = 4096, CALLS = 8, MOST_BINDINGS = 60, MOST_OPEN = 20 };
static const char *const names[CALLS] = {"check", "initial", "press", "section", "rewrite", "next_open", "preview", "commit"};
static const size_t said[CALLS] = {
    STAKESTALK_STACK_CHECK,   STAKESTALK_STACK_INITIAL, STAKESTALK_STACK_PRESS,
    STAKESTALK_STACK_SECTION, STAKESTALK_STACK_REWRITE, STAKESTALK_STACK_NEXT_OPEN,
    STAKESTALK_STACK_PREVIEW, STAKESTALK_STACK_COMMIT,
};
static size_t most[CALLS];
static const char *where[CALLS];

static uint8_t *stack, card[1 << 16], state[STAKESTALK_STATE_BYTES], out[STAKESTALK_OUTPUT_BYTES], objects[6];
static uint8_t found[STAKESTALK_FOUND_BYTES], changes[STAKESTALK_CHANGES_BYTES];
static size_t card_len, count, schema, objects_len, number;
static int call;
static int32_t answer;
static uint8_t *top;

/* One call, and the address at which its own stack begins. */
static void *make(void *nothing) {
    top = __builtin_frame_address(0);
    switch (call) {
    case 0: answer = stakestalk_check(card, card_len); break;
    case 1: answer = stakestalk_initial(card, card_len, state, sizeof state); break;
    case 2: answer = stakestalk_press(card, card_len, state, sizeof state, count, schema, objects, objects_len); break;
    case 3: answer = stakestalk_section(card, card_len, number, out, sizeof out); break;
    case 4: answer = stakestalk_rewrite(card, card_len, out, sizeof out); break;
    case 5:
        answer = stakestalk_next_open(card, card_len, state, sizeof state, count, (int32_t)objects_len, schema, objects, objects_len,
                                      found);
        break;
    case 6:
        answer = stakestalk_preview(card, card_len, state, sizeof state, count, schema, objects, objects_len, changes);
        break;
    default: answer = stakestalk_commit(card, card_len, state, sizeof state, count, changes);
    }
    return nothing;
}

static void fail(const char *what) {
    perror(what);
    exit(2);
}

/* Makes a call in a thread whose stack is the last `size` bytes of ours. */
static void make_on(size_t size) {
    pthread_attr_t attributes;
    pthread_t thread;
    pthread_attr_init(&attributes);
    if (pthread_attr_setstack(&attributes, stack + STACK - size, size) || pthread_create(&thread, &attributes, make, NULL))
        fail("thread");
    pthread_join(thread, NULL);
}

/* Makes a call twice: measured, and on as much stack as the header says beside what the thread takes for itself. */
static int32_t measured(int which, const char *name) {
    static uint8_t before[sizeof state];
    memcpy(before, state, sizeof state);
    memset(stack, PAINT, STACK);
    call = which;
    make_on(STACK);
    uint8_t *low = stack;
    while (*low == PAINT)
        low++;
    size_t depth = (size_t)(top - low), own = (size_t)(stack + STACK - top);
    if (depth > most[which]) {
        most[which] = depth;
        where[which] = name;
    }
    if (most[which] <= said[which]) {
        memcpy(state, before, sizeof state);
        size_t size = (said[which] + own + PAGE - 1) / PAGE * PAGE;
        uint8_t *guard = stack + STACK - size - PAGE;
        if (mprotect(guard, PAGE, PROT_NONE))
            fail("guard");
        make_on(size);
        if (mprotect(guard, PAGE, PROT_READ | PROT_WRITE))
            fail("guard");
    }
    return answer;
}

/* Presses each schema, on the first binding of its roles that is accepted; and asks about the same press and commits it. */
static void press_all(const char *name) {
    for (schema = 0;; schema++) {
        for (objects_len = 1; objects_len <= sizeof objects; objects_len++) {
            for (size_t i = 0; i < sizeof objects; i++)
                objects[i] = (uint8_t)i;
            for (int tried = 0; tried < MOST_BINDINGS; tried++) {
                count = (size_t)stakestalk_initial(card, card_len, state, sizeof state);
                int32_t next = stakestalk_press(card, card_len, state, sizeof state, count, schema, objects, objects_len);
                if (next == -STAKESTALK_REFUSED_SCHEMA)
                    return;
                if (next >= 0) {
                    stakestalk_initial(card, card_len, state, sizeof state);
                    measured(2, name);
                    stakestalk_initial(card, card_len, state, sizeof state);
                    measured(6, name);
                    measured(7, name);
                    break;
                }
                size_t place = objects_len;
                while (place > 0 && ++objects[place - 1] == 64)
                    objects[--place] = 0;
                if (place == 0)
                    break;
            }
        }
    }
}

/* The first open presses of the opening state, from none on. */
static void ask_open(const char *name) {
    count = (size_t)stakestalk_initial(card, card_len, state, sizeof state);
    objects_len = 0;
    for (int asked = 0; asked < MOST_OPEN && measured(5, name) > 0; asked++) {
        schema = found[0];
        objects_len = (size_t)answer;
        memcpy(objects, found + 1, objects_len);
    }
}

int main(int argc, char **argv) {
    stack = mmap(NULL, STACK, PROT_READ | PROT_WRITE, MAP_PRIVATE | MAP_ANONYMOUS, -1, 0);
    if (stack == MAP_FAILED)
        fail("stack");
    for (int i = 1; i < argc; i++) {
        FILE *file = fopen(argv[i], "rb");
        if (!file)
            fail(argv[i]);
        card_len = fread(card, 1, sizeof card, file);
        fclose(file);
        if (measured(0, argv[i]) != 0)
            continue;
        measured(1, argv[i]);
        press_all(argv[i]);
        for (number = 0; measured(3, argv[i]) >= 0; number++)
            ;
        measured(4, argv[i]);
        ask_open(argv[i]);
    }
    int short_ones = 0;
    for (int i = 0; i < CALLS; i++) {
        printf("%-9s takes %6zu bytes (%s), the header says %6zu, a figure for it is %6zu\n", names[i], most[i],
               where[i] ? where[i] : "no card", said[i], (most[i] / PAGE + 2) * PAGE);
        short_ones += !where[i] || said[i] < most[i] || STAKESTALK_STACK < said[i];
    }
    printf("%d passed, %d failed\n", CALLS - short_ones, short_ones);
    return short_ones != 0;
}
