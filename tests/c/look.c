/* The lookahead's calls, on good and bad input; with the test of list and state and without. What is expected is document 01's.
 * State and list stand before pages that cannot be touched. Before each call the store is filled with a mark, and afterwards all of it is
 * compared; a refusal has left state and store as they were. */
#include "expect.h"

/* What each call is told: 0, or that list and state were tested before. */
static uint32_t tested;

enum { ROOM = 1024, LONGEST = 3 * 300 };

static puffsatchel_ahead *state;
static puffsatchel_ahead before;
static uint32_t *words_end;
static const uint32_t *list;
static size_t list_len;
static uint32_t store[ROOM];

static void lend(const uint32_t *words, size_t len) {
    if (len != 0) memcpy(words_end - len, words, len * sizeof(uint32_t));
    list = words_end - len;
    list_len = len;
}

#define LEND(words) lend(words, sizeof words / sizeof(uint32_t))

static void fresh(uint32_t keep) {
    static const puffsatchel_ahead keeps = PUFFSATCHEL_AHEAD_KEEP;
    static const puffsatchel_ahead drops = PUFFSATCHEL_AHEAD_DROP;
    *state = keep ? keeps : drops;
    if (keep) state->keep = keep;
}

static void ready(void) {
    size_t i;
    for (i = 0; i < ROOM; i++) store[i] = MARK_WORD;
    before = *state;
    forget();
}

#define SHOW(name) (ready(), puffsatchel_##name(state, tested, list, list_len, &answer))
#define SHOW_N(name, n) (ready(), puffsatchel_##name(state, tested, n, list, list_len, &answer))
#define EMIT(name, room) (ready(), puffsatchel_##name(state, tested, list, list_len, store, room, &answer))
#define EMIT_N(name, n, room) (ready(), puffsatchel_##name(state, tested, n, list, list_len, store, room, &answer))

static int emitted(const uint32_t *words, size_t len) {
    size_t i;
    for (i = 0; i < ROOM; i++)
        if (store[i] != (i < len ? words[i] : MARK_WORD)) return 0;
    return 1;
}

#define EMITTED(name) emitted(words_##name, sizeof words_##name / sizeof(uint32_t))

static int nothing(void) {
    return emitted(store, 0);
}

/* All of the state but the slots of its rings that hold nothing. */
static int stands(uint32_t next, size_t held_len, size_t wait_len) {
    return state->next == next && state->keep == before.keep && state->held_len == held_len && state->wait_len == wait_len;
}

static int refused(uint32_t result, uint32_t number) {
    return result == number && answered(0, 0, 0, 0, 0) && memcmp(state, &before, sizeof before) == 0 && nothing();
}

/* a, white space, a comment, white space, b;; */
static const uint32_t words_all[] = {6, 0, 1, 1, 1, 2, 3, 2, 9, 1, 9, 10, 6, 10, 11, 31, 11, 12, 31, 12, 13};
static const uint32_t words_a[] = {6, 0, 1};
static const uint32_t words_white[] = {1, 1, 2, 3, 2, 9, 1, 9, 10};
static const uint32_t words_b[] = {6, 10, 11};
static const uint32_t words_a_b[] = {6, 0, 1, 6, 10, 11};
static const uint32_t words_to_b[] = {6, 0, 1, 1, 1, 2, 3, 2, 9, 1, 9, 10, 6, 10, 11};
static const uint32_t words_white_b[] = {1, 1, 2, 3, 2, 9, 1, 9, 10, 6, 10, 11};
static const uint32_t words_semis[] = {31, 11, 12, 31, 12, 13};
static const uint32_t words_semis_end[] = {31, 11, 12, 31, 12, 13, 67, 13, 13};
static const uint32_t words_end_of_file[] = {67, 13, 13};

static void looks(void) {
    LEND(words_all);
    fresh(1);
    EXPECT(SHOW(peek) == 0 && answered(6, 0, 0, 0, 0) && stands(1, 1, 0));
    EXPECT(SHOW_N(nth, 1) == 0 && answered(6, 0, 0, 0, 0) && stands(5, 2, 3));
    EXPECT(state->held[state->held_at] == 0 && state->held[(state->held_at + 1) % 8] == 4 && state->counts[(state->held_at + 1) % 8] == 3);
    EXPECT(state->waiting[state->wait_at] == 1 && state->waiting[(state->wait_at + 2) % 256] == 3);
    EXPECT(SHOW_N(nth_token, 1) == 0 && answered(6, 0, 10, 11, 0) && stands(5, 2, 3));
    EXPECT(SHOW_N(glued, 0) == 0 && answered(6, 0, 0, 0, 0));
    EXPECT(SHOW_N(glued, 1) == 0 && answered(67, 0, 0, 0, 0));
    EXPECT(SHOW_N(glued, 2) == 0 && answered(31, 0, 0, 0, 0) && stands(6, 3, 3));
    EXPECT(SHOW(is_eof) == 0 && answered(0, 0, 0, 0, 0));
    EXPECT(SHOW_N(fill, 7) == 0 && answered(0, 0, 0, 0, 0) && stands(7, 4, 3));
    EXPECT(SHOW_N(nth, 4) == 0 && answered(67, 0, 0, 0, 0));
    EXPECT(SHOW_N(nth_token, 7) == 0 && answered(67, 0, 13, 13, 0));
    EXPECT(nothing());
}

static void emits_kept(void) {
    LEND(words_all);
    fresh(1);
    EXPECT(EMIT(bump, 3) == 0 && answered(6, 1, 0, 1, 0) && EMITTED(a) && stands(1, 0, 0));
    EXPECT(EMIT(flush_ws, 9) == 0 && answered(0, 3, 10, 10, 0) && EMITTED(white) && stands(5, 1, 0));
    EXPECT(SHOW_N(glued, 0) == 0 && answered(6, 0, 0, 0, 0));
    EXPECT(EMIT_N(bump_if, 31, ROOM) == 0 && answered(0, 0, 0, 0, 0) && nothing() && stands(5, 1, 0));
    EXPECT(EMIT_N(bump_if, 6, ROOM) == 0 && answered(1, 1, 0, 0, 0) && EMITTED(b) && stands(5, 0, 0));
    EXPECT(EMIT_N(array, 0, 0) == 0 && answered(0, 0, 0, 0, 0) && nothing() && stands(5, 0, 0));
    EXPECT(EMIT_N(array, 2, 6) == 0 && answered(0, 2, 0, 0, 0) && EMITTED(semis) && stands(7, 2, 0));
    EXPECT(EMIT_N(array, 3, ROOM) == 0 && answered(0, 3, 0, 0, 0) && EMITTED(semis_end) && stands(7, 2, 0));
    EXPECT(EMIT_N(bump_while, 6, ROOM) == 0 && answered(0, 0, 0, 0, 0) && nothing() && stands(7, 2, 0));
    EXPECT(EMIT_N(bump_while, 31, ROOM) == 0 && answered(1, 2, 0, 0, 0) && EMITTED(semis) && stands(7, 0, 0));
    EXPECT(SHOW(is_eof) == 0 && answered(1, 0, 0, 0, 0));
    EXPECT(EMIT(bump, ROOM) == 0 && answered(67, 1, 13, 13, 0) && EMITTED(end_of_file) && stands(7, 0, 0));
    EXPECT(EMIT(bump, 3) == 0 && answered(67, 1, 13, 13, 0) && EMITTED(end_of_file) && stands(7, 0, 0));
    EXPECT(EMIT_N(bump_if, 67, 3) == 0 && answered(1, 1, 0, 0, 0) && EMITTED(end_of_file));
    EXPECT(refused(EMIT_N(bump_while, 67, ROOM), PUFFSATCHEL_STORE_SHORT));
    EXPECT(EMIT(flush_ws, 0) == 0 && answered(0, 0, 13, 13, 0) && nothing());
    EXPECT(EMIT_N(advance, 0, 0) == 0 && answered(0, 0, 0, 0, 0) && nothing());
    EXPECT(refused(EMIT_N(advance, 1, ROOM), PUFFSATCHEL_PAST_HELD));
}

static void emits_by_number(void) {
    LEND(words_all);
    fresh(1);
    EXPECT(SHOW_N(fill, 2) == 0 && stands(6, 3, 3));
    EXPECT(EMIT_N(advance, 2, 15) == 0 && answered(0, 5, 0, 0, 0) && EMITTED(to_b) && stands(6, 1, 0));
    fresh(0xdeadbeefu);
    EXPECT(EMIT_N(bump_while, 6, 15) == 0 && answered(1, 5, 0, 0, 0) && EMITTED(to_b));
    EXPECT(state->keep == 0xdeadbeefu);
    fresh(2);
    EXPECT(EMIT_N(bump_if, 6, 3) == 0 && answered(1, 1, 0, 0, 0) && EMITTED(a));
    EXPECT(EMIT(bump, 12) == 0 && answered(6, 4, 10, 11, 0) && EMITTED(white_b) && stands(5, 0, 0));
    fresh(0);
    EXPECT(SHOW_N(fill, 2) == 0 && stands(6, 3, 0));
    EXPECT(SHOW_N(glued, 1) == 0 && answered(6, 0, 0, 0, 0));
    EXPECT(EMIT_N(advance, 2, 6) == 0 && answered(0, 2, 0, 0, 0) && EMITTED(a_b) && stands(6, 1, 0));
}

static void an_empty_list(void) {
    static const uint32_t words_end_at_0[] = {67, 0, 0};
    lend(NULL, 0);
    fresh(1);
    EXPECT(SHOW(peek) == 0 && answered(67, 0, 0, 0, 0) && stands(0, 0, 0));
    EXPECT(SHOW(is_eof) == 0 && answered(1, 0, 0, 0, 0));
    EXPECT(SHOW_N(fill, 7) == 0 && answered(0, 0, 0, 0, 0) && stands(0, 0, 0));
    EXPECT(EMIT(bump, 3) == 0 && answered(67, 1, 0, 0, 0) && EMITTED(end_at_0));
    EXPECT(EMIT(bump, 3) == 0 && answered(67, 1, 0, 0, 0) && EMITTED(end_at_0));
    EXPECT(EMIT(flush_ws, 0) == 0 && answered(0, 0, 0, 0, 0) && nothing());
    EXPECT(refused(EMIT_N(bump_while, 67, 3), PUFFSATCHEL_STORE_SHORT));
}

static void refuses_too_far(void) {
    LEND(words_all);
    fresh(1);
    EXPECT(refused(SHOW_N(fill, 8), PUFFSATCHEL_TOO_FAR));
    EXPECT(refused(SHOW_N(nth, 8), PUFFSATCHEL_TOO_FAR));
    EXPECT(refused(SHOW_N(nth_token, SIZE_MAX), PUFFSATCHEL_TOO_FAR));
    EXPECT(refused(SHOW_N(glued, 8), PUFFSATCHEL_TOO_FAR));
    EXPECT(refused(EMIT_N(array, 9, ROOM), PUFFSATCHEL_TOO_FAR));
    EXPECT(refused(EMIT_N(array, SIZE_MAX, 0), PUFFSATCHEL_TOO_FAR));
    EXPECT(refused(EMIT_N(advance, SIZE_MAX, 0), PUFFSATCHEL_PAST_HELD));
}

static void refuses_a_short_store(void) {
    LEND(words_all);
    fresh(1);
    EXPECT(refused(EMIT(bump, 2), PUFFSATCHEL_STORE_SHORT));
    EXPECT(refused(EMIT_N(bump_if, 6, 2), PUFFSATCHEL_STORE_SHORT));
    EXPECT(refused(EMIT_N(bump_while, 6, 14), PUFFSATCHEL_STORE_SHORT));
    EXPECT(refused(EMIT_N(array, 2, 5), PUFFSATCHEL_STORE_SHORT));
    EXPECT(SHOW_N(fill, 1) == 0);
    EXPECT(refused(EMIT_N(advance, 2, 14), PUFFSATCHEL_STORE_SHORT));
    EXPECT(EMIT(bump, ROOM) == 0 && EMITTED(a));
    EXPECT(refused(EMIT(flush_ws, 8), PUFFSATCHEL_STORE_SHORT));
}

/* 256 tokens of white space may wait. */
static void refuses_more_white_space(void) {
    uint32_t white[LONGEST];
    size_t i;
    for (i = 0; i < LONGEST; i++) white[i] = i % 3 == 0 ? 1 : (uint32_t)(i / 3 + i % 3 - 1);
    lend(white, 3 * PUFFSATCHEL_MOST_WAITING);
    fresh(1);
    EXPECT(refused(EMIT(bump, PUFFSATCHEL_LARGEST_BUMP - 1), PUFFSATCHEL_STORE_SHORT));
    EXPECT(SHOW(peek) == 0 && answered(67, 0, 0, 0, 0) && stands(256, 0, 256));
    EXPECT(EMIT(bump, PUFFSATCHEL_LARGEST_BUMP) == 0 && answered(67, 257, 256, 256, 0) && stands(256, 0, 0));
    EXPECT(memcmp(store, white, 3 * 256 * sizeof(uint32_t)) == 0 && store[768] == 67 && store[769] == 256 && store[770] == 256 && store[771] == MARK_WORD);
    lend(white, 3 * (PUFFSATCHEL_MOST_WAITING + 1));
    fresh(1);
    EXPECT(refused(SHOW(peek), PUFFSATCHEL_WAITING_FULL));
    EXPECT(refused(SHOW(is_eof), PUFFSATCHEL_WAITING_FULL));
    EXPECT(refused(SHOW_N(fill, 0), PUFFSATCHEL_WAITING_FULL));
    EXPECT(refused(EMIT(bump, 0), PUFFSATCHEL_WAITING_FULL));
    EXPECT(refused(EMIT(flush_ws, 0), PUFFSATCHEL_WAITING_FULL));
    EXPECT(refused(EMIT_N(bump_while, 67, 0), PUFFSATCHEL_WAITING_FULL));
    EXPECT(refused(EMIT_N(array, 9, 0), PUFFSATCHEL_TOO_FAR));
    fresh(0);
    EXPECT(SHOW(peek) == 0 && answered(67, 0, 0, 0, 0) && stands(257, 0, 0));
}

static void all_refuse(uint32_t number) {
    EXPECT(refused(SHOW_N(fill, 8), number));
    EXPECT(refused(SHOW(peek), number));
    EXPECT(refused(SHOW_N(nth, SIZE_MAX), number));
    EXPECT(refused(SHOW_N(nth_token, 0), number));
    EXPECT(refused(SHOW_N(glued, 0), number));
    EXPECT(refused(SHOW(is_eof), number));
    EXPECT(refused(EMIT(flush_ws, 0), number));
    EXPECT(refused(EMIT(bump, ROOM), number));
    EXPECT(refused(EMIT_N(bump_if, 67, ROOM), number));
    EXPECT(refused(EMIT_N(bump_while, UINT32_MAX, ROOM), number));
    EXPECT(refused(EMIT_N(advance, SIZE_MAX, ROOM), number));
    EXPECT(refused(EMIT_N(array, 0, 0), number));
}

static void refuses_a_state(void) {
    LEND(words_all);
    memset(state, (int)MARK, sizeof *state);
    all_refuse(PUFFSATCHEL_FAULTY);
    fresh(1);
    state->next = 8;
    all_refuse(PUFFSATCHEL_FAULTY);
    fresh(1);
    state->held_len = 9;
    EXPECT(refused(SHOW(peek), PUFFSATCHEL_FAULTY));
    fresh(1);
    state->wait_len = 257;
    EXPECT(refused(SHOW(peek), PUFFSATCHEL_FAULTY));
    /* the comment, held as if it were no white space; then a, waiting as if it were: the order, which is not tested again */
    fresh(1);
    state->next = 3;
    state->held_len = 1;
    state->held[0] = 2;
    EXPECT(tested ? SHOW(peek) == 0 && answered(3, 0, 0, 0, 0) : refused(SHOW(peek), PUFFSATCHEL_FAULTY));
    fresh(1);
    state->next = 1;
    state->wait_len = 1;
    EXPECT(tested ? SHOW(peek) == 0 && answered(6, 0, 0, 0, 0) : refused(SHOW(peek), PUFFSATCHEL_FAULTY));
    /* a held token that was not read yet, and counts above the queue */
    fresh(1);
    state->held_len = 1;
    EXPECT(tested ? SHOW(peek) == 0 && answered(6, 0, 0, 0, 0) : refused(SHOW(peek), PUFFSATCHEL_FAULTY));
    fresh(1);
    state->held_len = 1;
    state->next = 1;
    state->counts[0] = 1;
    EXPECT(refused(SHOW(peek), PUFFSATCHEL_FAULTY));
    state->counts[0] = 0;
    EXPECT(SHOW(peek) == 0 && answered(6, 0, 0, 0, 0));
    /* a state of another list */
    lend(NULL, 0);
    EXPECT(refused(SHOW(peek), PUFFSATCHEL_FAULTY));
}

/* Not of whole records; kind 67; a first token that does not start at 0; a gap. What is not tested answers all the same. */
static void refuses_a_list(void) {
    static const uint32_t kind[] = {67, 0, 1};
    static const uint32_t late[] = {6, 1, 2};
    static const uint32_t gap[] = {6, 0, 1, 31, 2, 3};
    const uint32_t *lists[4];
    const size_t lens[4] = {4, 3, 3, 6};
    size_t i;
    lists[0] = words_all, lists[1] = kind, lists[2] = late, lists[3] = gap;
    for (i = 0; i < 4; i++) {
        lend(lists[i], lens[i]);
        fresh(1);
        tested = 0;
        all_refuse(PUFFSATCHEL_FAULTY);
        tested = 1;
        EXPECT(SHOW_N(fill, 7) != PUFFSATCHEL_FAULTY);
        EXPECT(EMIT(bump, ROOM) != PUFFSATCHEL_FAULTY);
    }
}

/* The other calls in the same program: what is emitted of a source's list is that list, and its tokens are told as they are read. */
static void reads_a_source(uint32_t reading) {
    static const char text[] = "pub fn main() { // first\n  let a = 1..=2;\t/* second */ b\"c\" }";
    const size_t text_len = sizeof text - 1;
    uint32_t words[3 * sizeof text];
    size_t len, at = 0, token = 0;
    int right = 1;
    forget();
    EXPECT(puffsatchel_list((const uint8_t *)text, text_len, reading, words, sizeof words / sizeof(uint32_t), &answer) == 0);
    len = 3 * answer.count;
    lend(words, len);
    fresh(1);
    while (right && at < len) {
        right = EMIT(bump, ROOM) == 0 && answer.count != 0 && memcmp(store, words + at, 3 * answer.count * sizeof(uint32_t)) == 0;
        at += 3 * answer.count;
        token = answer.start;
        right = right && puffsatchel_read((const uint8_t *)text, text_len, reading, token, &answer) == 0 && answer.value == words[at - 3];
    }
    EXPECT(right && at == len && token == text_len - 1);
    EXPECT(SHOW(is_eof) == 0 && answered(1, 0, 0, 0, 0));
}

int main(void) {
    int i;
    state = (puffsatchel_ahead *)(void *)edge(sizeof(puffsatchel_ahead));
    words_end = (uint32_t *)(void *)edge(LONGEST * sizeof(uint32_t)) + LONGEST;
    for (i = 0; i < 2; i++) {
        tested = i == 0 ? 0 : 1;
        looks();
        emits_kept();
        emits_by_number();
        an_empty_list();
        refuses_too_far();
        refuses_a_short_store();
        refuses_more_white_space();
        refuses_a_state();
        reads_a_source(PUFFSATCHEL_COMMENTS_CRATE);
        reads_a_source(PUFFSATCHEL_COMMENTS_FIRST);
    }
    refuses_a_list();
    printf("%d passed, %d failed\n", passed, failed);
    return failed != 0;
}
