/* Comments against a statement that shares nothing with the library: a small reader, written from document 01 for eight characters only, in which
 * the end of a comment is what memmem finds. Through the C face are compared the list with every lent word, the tokens one by one, and the outline,
 * of every source of up to seven scalars and of 500,000 random ones.
 *
 * usage: first              the first close after the opening, PUFFSATCHEL_COMMENTS_FIRST
 *        first --crate      the first one after two more scalars, PUFFSATCHEL_COMMENTS_CRATE */
#define _GNU_SOURCE
#include "chance.h"
#include "lent.h"

static const char ALPHABET[] = {'/', '*', 'a', '\n', ' ', '`', '\\', '"'};

enum { LETTERS = sizeof ALPHABET, SHORT = 7, LEAST = 8, MOST = 60, GUARD = 8 };

/* The crate's comments are also compared with the Rust (bin/compare-all), so fewer sources are enough for them. */
static uint32_t reading = PUFFSATCHEL_COMMENTS_FIRST;
static size_t longest_short = SHORT;
static size_t turns = 500000;

/* What the reader here says of a place. In this alphabet a refusal has always reached its end. */
struct token {
    uint32_t refused;
    uint32_t kind;
    size_t start;
    size_t end;
    int shut; /* a backtick closed the template */
};

static struct token made(uint32_t kind, size_t start, size_t end) {
    const struct token token = {0, kind, start, end, 0};
    return token;
}

static struct token refusal(uint32_t number, size_t start, size_t end) {
    const struct token token = {number, 0, start, end, 0};
    return token;
}

static size_t run_end(const char *text, size_t len, size_t at, const char *letters) {
    while (at < len && strchr(letters, text[at]) != NULL) at++;
    return at;
}

static struct token line_comment(const char *text, size_t len, size_t at) {
    const char *line_end = (const char *)memchr(text + at, '\n', len - at);
    return made(2, at, line_end == NULL ? len : (size_t)(line_end - text));
}

/* The first close from a place on. */
static const char *close_from(const char *text, size_t len, size_t place) {
    return (const char *)memmem(text + place, len - place, "*/", 2);
}

static struct token comment(const char *text, size_t len, size_t at) {
    const size_t opened = at + 2;
    const size_t passed = opened + 2 < len ? opened + 2 : len;
    const char *close = close_from(text, len, reading == PUFFSATCHEL_COMMENTS_FIRST ? opened : passed);
    return close == NULL ? made(4, at, len) : made(3, at, (size_t)(close - text) + 2);
}

static struct token slash(const char *text, size_t len, size_t at) {
    const char second = at + 1 < len ? text[at + 1] : ' ';
    if (second == '/') return line_comment(text, len, at);
    if (second == '*') return comment(text, len, at);
    return made(29, at, at + 1);
}

static struct token string(const char *text, size_t len, size_t at) {
    uint32_t kind = 11;
    size_t place = at + 1;
    while (place < len) {
        if (text[place] == '"') return made(kind, at, place + 1);
        if (text[place] == '\\') {
            if (place + 1 == len) return refusal(10, place, len);
            kind = 12;
            place++;
        }
        place++;
    }
    return refusal(16, at, len);
}

static struct token token_at(const char *text, size_t len, size_t at);

/* No brace is in this alphabet, so every backtick closes; and 65 templates in each other do not fit into the longest source. */
static struct token template_at(const char *text, size_t len, size_t at) {
    struct token token = made(16, at, len);
    size_t place = at + 1;
    while (place < len) {
        const char letter = text[place++];
        if (letter == '`') {
            token.end = place;
            token.shut = 1;
            return token;
        }
        if (letter == '\\') place = token_at(text, len, place).end;
    }
    return token;
}

static struct token token_at(const char *text, size_t len, size_t at) {
    if (at == len) return made(67, at, at);
    switch (text[at]) {
    case ' ':
    case '\n':
        return made(1, at, run_end(text, len, at, " \n"));
    case 'a':
        return made(6, at, run_end(text, len, at, "a"));
    case '"':
        return string(text, len, at);
    case '`':
        return template_at(text, len, at);
    case '*':
        return made(24, at, at + 1);
    case '/':
        return slash(text, len, at);
    default:
        return refusal(18, at, at + 1);
    }
}

/* The tokens of a source, and last the end or what is refused. */
static struct token wanted[MOST + 1];
static size_t count;

static void read_all(const char *text, size_t len) {
    size_t at = 0;
    for (count = 0; count <= MOST; count++) {
        wanted[count] = token_at(text, len, at);
        if (wanted[count].refused != 0 || wanted[count].kind == 67) return;
        at = wanted[count].end;
    }
}

/* An answer that has no token's kind in it: where nothing is refused, nothing but the count. */
static int tells(uint32_t result, size_t counted) {
    const struct token *last = &wanted[count];
    if (result != last->refused) return 0;
    if (result == 0) return answered(0, counted, 0, 0, 0);
    return answered(0, counted, last->start, last->end, last->end);
}

static uint32_t store[3 * MOST + GUARD];

static int lists(const uint8_t *source, size_t len) {
    uint32_t result;
    size_t i;
    for (i = 0; i < 3 * len + GUARD; i++) store[i] = MARK_WORD;
    forget();
    result = puffsatchel_list(source, len, reading, store, 3 * len, &answer);
    for (i = 0; i < count; i++)
        if (store[3 * i] != wanted[i].kind || store[3 * i + 1] != wanted[i].start || store[3 * i + 2] != wanted[i].end) return 0;
    for (i = 3 * count; i < 3 * len + GUARD; i++)
        if (store[i] != MARK_WORD) return 0;
    return tells(result, count);
}

static int reads_on(const uint8_t *source, size_t len) {
    size_t i;
    for (i = 0; i <= count; i++) {
        const struct token *token = &wanted[i];
        forget();
        if (puffsatchel_next(source, len, reading, i == 0 ? 0 : wanted[i - 1].end, &answer) != token->refused) return 0;
        if (!answered(token->kind, 0, token->start, token->end, token->end)) return 0;
    }
    return 1;
}

/* What stays of a token before and after its inside; 0 where it has none. */
static int has_inside(const struct token *token, size_t *open, size_t *close) {
    switch (token->kind) {
    case 2:
    case 4:
        *open = 2, *close = 0;
        return 1;
    case 3:
        *open = 2, *close = 2;
        return 1;
    case 11:
    case 12:
        *open = 1, *close = 1;
        return 1;
    case 16:
        *open = 1, *close = token->shut ? 1 : 0;
        return 1;
    default:
        return 0;
    }
}

static uint8_t painted[MOST];
static uint8_t out[MOST + GUARD];

static int outlines(const uint8_t *source, size_t len) {
    uint32_t result;
    size_t i, open, close;
    memcpy(painted, source, len);
    for (i = 0; i < count; i++)
        if (has_inside(&wanted[i], &open, &close)) memset(painted + wanted[i].start + open, 'x', wanted[i].end - wanted[i].start - open - close);
    memset(out, (int)MARK, sizeof out);
    forget();
    result = puffsatchel_outline(source, len, reading, out, len, &answer);
    for (i = 0; i < len + GUARD; i++)
        if (out[i] != (i < len ? painted[i] : MARK)) return 0;
    return tells(result, 0);
}

static void print_text(const char *name, const uint8_t *text, size_t len) {
    size_t i;
    printf("  %s: ", name);
    for (i = 0; i < len; i++) {
        if (text[i] == '\n')
            printf("<LF>");
        else
            putchar(text[i]);
    }
    putchar('\n');
}

/* Both answers to a source: each as tokens, and what came after them. */
static void print_answers(const uint8_t *source, size_t len) {
    const struct token *last = &wanted[count];
    uint32_t result;
    size_t i;
    print_text("source", source, len);
    printf("  stated:");
    for (i = 0; i < count; i++) printf(" %u %lu..%lu,", wanted[i].kind, (unsigned long)wanted[i].start, (unsigned long)wanted[i].end);
    printf(" refused %u %lu..%lu\n", last->refused, (unsigned long)last->start, (unsigned long)last->end);
    print_text("outline", painted, len);
    result = puffsatchel_list(source, len, reading, store, 3 * len, &answer);
    printf("  listed:");
    for (i = 0; i < answer.count; i++) printf(" %u %u..%u,", store[3 * i], store[3 * i + 1], store[3 * i + 2]);
    printf(" refused %u %lu..%lu, reached %lu\n", result, (unsigned long)answer.start, (unsigned long)answer.end, (unsigned long)answer.reached);
    print_text("outline", out, len);
}

static uint8_t *text_end;
static unsigned long sources, differences;

static void compare(const char *text, size_t len) {
    const uint8_t *source = text_end - len;
    int listed, read, outlined;
    memcpy(text_end - len, text, len);
    read_all(text, len);
    listed = lists(source, len);
    read = reads_on(source, len);
    outlined = outlines(source, len);
    sources++;
    if (listed && read && outlined) return;
    if (differences++ == 0) {
        printf("tests/c/first.c: the first difference, in%s%s%s:\n", listed ? "" : " list", read ? "" : " next", outlined ? "" : " outline");
        print_answers(source, len);
    }
}

static void every_short_source(void) {
    char text[SHORT];
    unsigned long number, all = 1;
    size_t len, i;
    for (len = 0; len <= longest_short; len++, all *= LETTERS) {
        for (number = 0; number < all; number++) {
            unsigned long left = number;
            for (i = 0; i < len; i++, left /= LETTERS) text[i] = ALPHABET[left % LETTERS];
            compare(text, len);
        }
    }
}

/* The marks of comments come often, and what ends the reading of a source seldom. */
static void random_sources(void) {
    static const char letters[] = "////////********aaa\n\n\n   ```\\\\\"\"";
    char text[MOST];
    size_t turn, i;
    for (turn = 0; turn < turns; turn++) {
        const size_t len = LEAST + chance() % (MOST - LEAST + 1);
        for (i = 0; i < len; i++) text[i] = letters[chance() % (sizeof letters - 1)];
        compare(text, len);
    }
}

int main(int argc, char **argv) {
    if (argc == 2 && strcmp(argv[1], "--crate") == 0) {
        reading = PUFFSATCHEL_COMMENTS_CRATE;
        longest_short = SHORT - 1;
        turns = 100000;
    } else if (argc != 1) {
        fprintf(stderr, "usage: first [--crate]\n");
        return 2;
    }
    text_end = edge(MOST) + MOST;
    every_short_source();
    random_sources();
    printf("%s: %lu sources compared, %lu differ\n", reading == PUFFSATCHEL_COMMENTS_FIRST ? "first close" : "the crate's comments", sources, differences);
    return differences != 0;
}
