/* The stack that the calls need. Each call runs on a stack of its own that was painted before, and what has lost its paint is counted: on random
 * sources with no template in another, and in 64 templates. Held to what puffsatchel.h says. */
#define _GNU_SOURCE
#include "pieces.h"
#include "puffsatchel.h"

#include <stdio.h>
#include <string.h>
#include <ucontext.h>

#define PAINT 0xa5

enum { TURNS = 1000, PIECES = 12, NEST = 2 * PUFFSATCHEL_DEEPEST_TEMPLATE, MOST = NEST + 8 * PIECES, PAINTED = 1 << 15 };

static uint8_t painted[PAINTED];
static ucontext_t here, there;

/* The bytes that a function takes, with what it takes to come there and back. */
static size_t taken_by(void (*function)(void)) {
    size_t left = 0;
    memset(painted, PAINT, sizeof painted);
    getcontext(&there);
    there.uc_stack.ss_sp = painted;
    there.uc_stack.ss_size = sizeof painted;
    there.uc_link = &here;
    makecontext(&there, function, 0);
    swapcontext(&here, &there);
    while (painted[left] == PAINT) left++;
    return sizeof painted - left;
}

/* What the calls are lent. */
static uint8_t source[MOST], out[MOST], records[11 * MOST];
static uint32_t store[5 * MOST], list[3 * MOST], loaded[3 * MOST];
static size_t len, words, bytes, n;
static uint32_t reading, form, kind, tested;
static puffsatchel_ahead state;
static puffsatchel_answer answer;

static void nothing(void) {
}

/* A call with what it is lent, as a function that takes nothing. */
#define CALL(name, ...)                                    \
    static void call_##name(void) {                        \
        puffsatchel_##name(__VA_ARGS__, &answer);            \
    }

CALL(test, source, len)
CALL(read, source, len, reading, 0)
CALL(next, source, len, reading, 0)
CALL(list, source, len, reading, list, 3 * len)
CALL(outline, source, len, reading, out, len)
CALL(findings, source, len, reading, store, 5 * len)
CALL(unescape, source, len, form, out, len)
CALL(store, list, words, records, sizeof records)
CALL(load, records, bytes, loaded, words)
CALL(fill, &state, tested, n, list, words)
CALL(peek, &state, tested, list, words)
CALL(nth, &state, tested, n, list, words)
CALL(nth_token, &state, tested, n, list, words)
CALL(glued, &state, tested, n, list, words)
CALL(is_eof, &state, tested, list, words)
CALL(flush_ws, &state, tested, list, words, store, 3 * len)
CALL(bump, &state, tested, list, words, store, 3 * len)
CALL(bump_if, &state, tested, kind, list, words, store, 3 * len)
CALL(bump_while, &state, tested, kind, list, words, store, 3 * len)
CALL(advance, &state, tested, n, list, words, store, 3 * len)
CALL(array, &state, tested, n, list, words, store, 3 * len)

struct call {
    const char *name;
    void (*function)(void);
    size_t most; /* bytes of stack */
};

#define NAMED(name) {#name, call_##name, 0}

static struct call of_a_source[] = {NAMED(test), NAMED(read), NAMED(next), NAMED(list), NAMED(outline), NAMED(findings)};
static struct call of_others[] = {NAMED(unescape), NAMED(store), NAMED(load)};
static struct call of_a_state[] = {NAMED(fill), NAMED(peek), NAMED(nth), NAMED(nth_token), NAMED(glued), NAMED(is_eof),
    NAMED(flush_ws), NAMED(bump), NAMED(bump_if), NAMED(bump_while), NAMED(advance), NAMED(array)};

#define COUNT(calls) (sizeof calls / sizeof calls[0])

static size_t way; /* there and back */

static void measure(struct call *call) {
    const size_t taken = taken_by(call->function) - way;
    if (taken > call->most) call->most = taken;
}

static void put_pieces(void) {
    size_t i;
    for (i = chance() % (PIECES + 1); i > 0; i--) {
        const char *letters = piece();
        memcpy(source + len, letters, strlen(letters));
        len += strlen(letters);
    }
}

/* A template stands in another only after a backslash. */
static void plain_source(void) {
    size_t i;
    len = 0;
    put_pieces();
    if (memchr(source, '`', len) == NULL) return;
    for (i = 0; i < len; i++)
        if (source[i] == '\\') source[i] = 'a';
}

static void nested_source(void) {
    for (len = 0; len < NEST; len++) source[len] = len % 2 ? '\\' : '`';
    put_pieces();
}

static void measure_sources(void (*make)(void)) {
    size_t turn, i;
    for (turn = 0; turn < TURNS; turn++) {
        make();
        reading = chance() % 2 ? PUFFSATCHEL_COMMENTS_CRATE : PUFFSATCHEL_COMMENTS_FIRST;
        for (i = 0; i < COUNT(of_a_source); i++) measure(&of_a_source[i]);
    }
}

static void measure_others(void) {
    static const puffsatchel_ahead fresh = PUFFSATCHEL_AHEAD_KEEP;
    size_t turn, i;
    for (turn = 0; turn < TURNS; turn++) {
        plain_source();
        form = (uint32_t)(1 + chance() % 5);
        reading = PUFFSATCHEL_COMMENTS_CRATE;
        call_list();
        words = 3 * answer.count;
        call_store();
        bytes = answer.count;
        state = fresh;
        for (i = 0; i < COUNT(of_others); i++) measure(&of_others[i]);
        for (i = 0; i < COUNT(of_a_state); i++) {
            n = chance() % 9;
            kind = (uint32_t)(1 + chance() % 67);
            tested = chance() % 2;
            measure(&of_a_state[chance() % COUNT(of_a_state)]);
        }
    }
}

/* The most that any of these takes. */
static size_t print_most(const struct call *calls, size_t count) {
    size_t i, most = 0;
    for (i = 0; i < count; i++) {
        printf(" %s %lu", calls[i].name, (unsigned long)calls[i].most);
        if (calls[i].most > most) most = calls[i].most;
    }
    putchar('\n');
    return most;
}

static int within(size_t most, size_t bound) {
    if (most < bound) return 1;
    printf("tests/c/stack.c: a call takes %lu bytes of stack, and puffsatchel.h says less than %lu\n", (unsigned long)most, (unsigned long)bound);
    return 0;
}

int main(void) {
    int right;
    way = taken_by(nothing);
    measure_others();
    measure_sources(plain_source);
    printf("stack in bytes:");
    right = within(print_most(of_a_source, COUNT(of_a_source)), 1024);
    printf("stack in bytes:");
    right = within(print_most(of_others, COUNT(of_others)), 1024) && right;
    printf("stack in bytes:");
    right = within(print_most(of_a_state, COUNT(of_a_state)), 1024) && right;
    measure_sources(nested_source);
    printf("in 64 templates:");
    return !(within(print_most(of_a_source, COUNT(of_a_source)), 16384) && right);
}
