/* stakestalk-list [FILE]: prints the listing of the card in FILE, or on standard input, for build scripts.
 *
 * Standard output has what the program `stakestalk` prints: the listing, or `refused` and the number. The status says which:
 *   0  the card was listed
 *   1  the card was refused; standard error has the number, what it means and the byte at which reading stopped
 *   2  something could not be read or written; standard error has what, and standard output is no listing
 * Nothing is printed before the whole listing has been made, so that a refusal leaves no half listing.
 *
 * Build: cc -Iinclude command/stakestalk-list.c crates/capi/out/libcapi.a -o target/stakestalk-list */
#include <errno.h>
#include <fcntl.h>
#include <signal.h>
#include <stdio.h>
#include <stdlib.h>
#include <string.h>
#include <unistd.h>
#include "stakestalk.h"

enum { LISTED = 0, REFUSED = 1, FAILED = 2 };

/* A card is at most 5,305 bytes long, so that one byte more decides (theorem decode_window). */
enum { WINDOW = 5306 };

/* Bytes made so far, in memory of their own. */
struct text {
    uint8_t *bytes;
    size_t length;
};

/* What each refusal of a card means, by its number. */
static const char *const meanings[] = {
    "",
    "the card ends where a byte is due",
    "the predicate count or an arity is out of range",
    "the object count is 0 or over 64",
    "the schema count is over 32",
    "a high bit of a map is set, or a role count is outside 2 to 6",
    "a list count is outside 1 to 8",
    "an atom has an unknown predicate or role",
    "an atom is not above the one before",
    "a deleted atom is no precondition",
    "an added atom is a precondition",
    "the fact count is over 512",
    "a fact has an unknown predicate or object",
    "a fact is not above the one before",
    "bytes follow the last fact",
};

static int failed(const char *what) {
    fprintf(stderr, "stakestalk-list: %s: %s\n", what, strerror(errno));
    return FAILED;
}

/* Reads an input to its end and keeps the first bytes, as many as decide. Answers how many there are, or -1 if a read failed. */
static ssize_t read_card(int input, uint8_t *window) {
    static uint8_t rest[65536];
    size_t kept = 0;
    for (;;) {
        int full = kept == WINDOW;
        ssize_t got = full ? read(input, rest, sizeof rest) : read(input, window + kept, WINDOW - kept);
        if (got < 0 && errno == EINTR)
            continue;
        if (got < 0)
            return -1;
        if (got == 0)
            return (ssize_t)kept;
        if (!full)
            kept += (size_t)got;
    }
}

/* Puts bytes behind a text. Answers whether there was memory for them. */
static int append(struct text *text, const uint8_t *bytes, size_t length) {
    uint8_t *longer = realloc(text->bytes, text->length + length + 1);
    if (longer == NULL)
        return 0;
    memcpy(longer + text->length, bytes, length);
    text->bytes = longer;
    text->length += length;
    return 1;
}

/* Makes the listing of an accepted card, section after section. Answers whether there was memory for it. */
static int make_listing(const uint8_t *card, size_t length, struct text *text) {
    static uint8_t section[STAKESTALK_OUTPUT_BYTES];
    int32_t written;
    for (size_t number = 0; (written = stakestalk_section(card, length, number, section, sizeof section)) >= 0; number++)
        if (!append(text, section, (size_t)written))
            return 0;
    return 1;
}

/* The byte at which reading stopped, counted from 0; for refusal 1 the byte that is missing.
 *
 * Reading goes front to back and makes each check as soon as its field is read. So a front of the card that ends before the byte that
 * decides meets no check that fails: it ends where a byte is due and is refused by 1, or, where the decision is that bytes follow, it is
 * a whole card and accepted. And every front that has that byte is refused as the card is, since nothing after it is looked at. The byte
 * is the last one of the shortest front that is refused by the card's own number, which bisection finds. */
static size_t refused_byte(const uint8_t *card, size_t length, int32_t refusal) {
    if (refusal == -STAKESTALK_REFUSED_CARD_ENDS)
        return length;
    size_t before = 0, at = length; /* the front of `before` bytes is not refused by that number, the one of `at` bytes is */
    while (at - before > 1) {
        size_t middle = before + (at - before) / 2;
        if (stakestalk_check(card, middle) == refusal)
            at = middle;
        else
            before = middle;
    }
    return at - 1;
}

/* Writes a whole text to standard output and closes it. Answers whether both went well. */
static int print(const struct text *text) {
    size_t done = 0;
    while (done < text->length) {
        ssize_t put = write(STDOUT_FILENO, text->bytes + done, text->length - done);
        if (put < 0 && errno == EINTR)
            continue;
        if (put < 0)
            return 0;
        done += (size_t)put;
    }
    return close(STDOUT_FILENO) == 0;
}

int main(int count, char **words) {
    static uint8_t card[WINDOW];
    struct text text = {NULL, 0};
    int input = STDIN_FILENO;
    const char *name = "standard input";

    if (count > 2) {
        fprintf(stderr, "usage: stakestalk-list [FILE]\n");
        return FAILED;
    }
    if (count == 2) {
        name = words[1];
        input = open(name, O_RDONLY);
        if (input < 0)
            return failed(name);
    }
    ssize_t length = read_card(input, card);
    if (length < 0)
        return failed(name);
    signal(SIGPIPE, SIG_IGN); /* a reader that has gone is a write that fails */

    int32_t verdict = stakestalk_check(card, (size_t)length);
    if (verdict < 0) {
        char line[32];
        int number = (int)-verdict;
        int made = snprintf(line, sizeof line, "refused %d\n", number);
        fprintf(stderr, "stakestalk-list: %s: refused %d at byte %zu, counted from 0: %s\n", name, number,
                refused_byte(card, (size_t)length, verdict), meanings[number]);
        if (!append(&text, (const uint8_t *)line, (size_t)made) || !print(&text))
            return failed("standard output");
        return REFUSED;
    }
    if (!make_listing(card, (size_t)length, &text))
        return failed("listing");
    if (!print(&text))
        return failed("standard output");
    return LISTED;
}
