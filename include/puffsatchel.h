/* SPDX-License-Identifier: Apache-2.0
 *
 * Puffsatchel: reads the text of site rules (Rune scripts) into tokens. Proved: every call answers on every input, and as this page says.
 *
 * Link with libpuffsatchel.a (bin/build-library). No call keeps or allocates memory, calls another library or has state of its own;
 * calls on different memory may run at the same time. A call takes less than 1 KiB of stack, and less than 16 KiB where 64 templates stand in
 * each other (measured; bin/test-c holds both).
 *
 * One convention for all: the result is the number of a refusal, 0 where nothing was refused. The rest of the answer goes to the record
 * that the caller lends, all five fields of it, in every case; what a call does not give is 0.
 *
 * A lent array is a pointer and the number of its elements. The pointer is not null and right for the elements' alignment, also where the
 * number is 0. What is written may not overlap anything else that is lent to the same call.
 */
#ifndef PUFFSATCHEL_H
#define PUFFSATCHEL_H

#if !defined(__x86_64__) || !defined(__ELF__) || defined(__ILP32__)
#error "libpuffsatchel.a is always built for x86-64 Linux, so compile for that too: with Debian's x86_64-linux-gnu-gcc, for example."
#endif

#include <stddef.h>
#include <stdint.h>

#ifdef __cplusplus
extern "C" {
#endif

/* The version of this page; puffsatchel_version() is that of the archive. */
#define PUFFSATCHEL_VERSION 6

/* Sizes, for memory that is always enough. */
enum {
    PUFFSATCHEL_LARGEST_SOURCE = 65536,                                 /* bytes */
    PUFFSATCHEL_WORDS_PER_TOKEN = 3,                                    /* kind, start, end */
    PUFFSATCHEL_LARGEST_LIST = 3 * PUFFSATCHEL_LARGEST_SOURCE,          /* words: a token is a byte or more */
    PUFFSATCHEL_FINDING_WORDS = 5,                                      /* code, start, end, from, to */
    PUFFSATCHEL_LARGEST_FINDINGS = 5 * PUFFSATCHEL_LARGEST_SOURCE,      /* words: no more findings than bytes */
    PUFFSATCHEL_BYTES_PER_RECORD = 11,                                  /* of a stored list */
    PUFFSATCHEL_LARGEST_STORED = 11 * PUFFSATCHEL_LARGEST_SOURCE,       /* bytes */
    PUFFSATCHEL_DEEPEST_TEMPLATE = 64,
    PUFFSATCHEL_AHEAD_BYTES = 1112,                                     /* of a lookahead's state */
    PUFFSATCHEL_MOST_HELD = 8,                                          /* tokens that the lookahead holds */
    PUFFSATCHEL_MOST_WAITING = 256,                                     /* tokens of white space that wait */
    PUFFSATCHEL_LARGEST_BUMP = 3 * (256 + 1)                            /* words: one token with all that waits before it */
};

/* What a call answers beside its result. Places are bytes from the start of the source; a span is from start to before end. */
typedef struct puffsatchel_answer {
    size_t value;   /* a token's kind; in the lookahead also 1 for yes, 0 for no */
    size_t count;   /* how much was written; each call says of what */
    size_t start;   /* the token's span, or the refusal's */
    size_t end;
    size_t reached; /* where reading stopped: the token's end, or the place that the refusal reached */
} puffsatchel_answer;

/* The kinds of tokens. */
enum {
    /* tools/texts.py writes kinds, from texts.txt */
    PUFFSATCHEL_KIND_WHITESPACE = 1,        /* white space */
    PUFFSATCHEL_KIND_COMMENT = 2,           /* a comment to the end of the line */
    PUFFSATCHEL_KIND_MULTILINE_COMMENT = 3, /* a closed comment */
    PUFFSATCHEL_KIND_UNCLOSED_COMMENT = 4,  /* a comment that nothing closes */
    PUFFSATCHEL_KIND_SHEBANG = 5,           /* a shebang */
    PUFFSATCHEL_KIND_IDENT = 6,             /* a word */
    PUFFSATCHEL_KIND_UNDERSCORE = 7,        /* a lone `_` */
    PUFFSATCHEL_KIND_NUMBER = 8,            /* a number */
    PUFFSATCHEL_KIND_CHAR = 9,              /* a char */
    PUFFSATCHEL_KIND_BYTE = 10,             /* a byte */
    PUFFSATCHEL_KIND_STR = 11,              /* a string */
    PUFFSATCHEL_KIND_ESCAPED_STR = 12,      /* a string with a backslash in it */
    PUFFSATCHEL_KIND_BYTE_STR = 13,         /* a byte string */
    PUFFSATCHEL_KIND_ESCAPED_BYTE_STR = 14, /* a byte string with a backslash in it */
    PUFFSATCHEL_KIND_LABEL = 15,            /* a label */
    PUFFSATCHEL_KIND_TEMPLATE = 16,         /* a template */
    PUFFSATCHEL_KIND_BANG = 17,             /* `!` */
    PUFFSATCHEL_KIND_POUND = 18,            /* `#` */
    PUFFSATCHEL_KIND_DOLLAR = 19,           /* `$` */
    PUFFSATCHEL_KIND_PERC = 20,             /* `%` */
    PUFFSATCHEL_KIND_AMP = 21,              /* `&` */
    PUFFSATCHEL_KIND_OPEN_ROUND = 22,       /* `(` */
    PUFFSATCHEL_KIND_CLOSE_ROUND = 23,      /* `)` */
    PUFFSATCHEL_KIND_STAR = 24,             /* `*` */
    PUFFSATCHEL_KIND_PLUS = 25,             /* `+` */
    PUFFSATCHEL_KIND_COMMA = 26,            /* `,` */
    PUFFSATCHEL_KIND_DASH = 27,             /* `-` */
    PUFFSATCHEL_KIND_DOT = 28,              /* `.` */
    PUFFSATCHEL_KIND_DIV = 29,              /* `/` */
    PUFFSATCHEL_KIND_COLON = 30,            /* `:` */
    PUFFSATCHEL_KIND_SEMI_COLON = 31,       /* `;` */
    PUFFSATCHEL_KIND_LT = 32,               /* `<` */
    PUFFSATCHEL_KIND_EQ = 33,               /* `=` */
    PUFFSATCHEL_KIND_GT = 34,               /* `>` */
    PUFFSATCHEL_KIND_QUESTION_MARK = 35,    /* `?` */
    PUFFSATCHEL_KIND_AT = 36,               /* `@` */
    PUFFSATCHEL_KIND_OPEN_SQUARE = 37,      /* `[` */
    PUFFSATCHEL_KIND_CLOSE_SQUARE = 38,     /* `]` */
    PUFFSATCHEL_KIND_CARET = 39,            /* `^` */
    PUFFSATCHEL_KIND_OPEN_CURLY = 40,       /* `{` */
    PUFFSATCHEL_KIND_PIPE = 41,             /* `|` */
    PUFFSATCHEL_KIND_CLOSE_CURLY = 42,      /* `}` */
    PUFFSATCHEL_KIND_TILDE = 43,            /* `~` */
    PUFFSATCHEL_KIND_BANG_EQ = 44,          /* `!=` */
    PUFFSATCHEL_KIND_PERC_EQ = 45,          /* `%=` */
    PUFFSATCHEL_KIND_AMP_AMP = 46,          /* `&&` */
    PUFFSATCHEL_KIND_AMP_EQ = 47,           /* `&=` */
    PUFFSATCHEL_KIND_STAR_EQ = 48,          /* `*=` */
    PUFFSATCHEL_KIND_PLUS_EQ = 49,          /* `+=` */
    PUFFSATCHEL_KIND_DASH_EQ = 50,          /* `-=` */
    PUFFSATCHEL_KIND_ARROW = 51,            /* `->` */
    PUFFSATCHEL_KIND_DOT_DOT = 52,          /* `..` */
    PUFFSATCHEL_KIND_SLASH_EQ = 53,         /* `/=` */
    PUFFSATCHEL_KIND_COLON_COLON = 54,      /* `::` */
    PUFFSATCHEL_KIND_LT_LT = 55,            /* `<<` */
    PUFFSATCHEL_KIND_LT_EQ = 56,            /* `<=` */
    PUFFSATCHEL_KIND_EQ_EQ = 57,            /* `==` */
    PUFFSATCHEL_KIND_ROCKET = 58,           /* `=>` */
    PUFFSATCHEL_KIND_GT_EQ = 59,            /* `>=` */
    PUFFSATCHEL_KIND_GT_GT = 60,            /* `>>` */
    PUFFSATCHEL_KIND_CARET_EQ = 61,         /* `^=` */
    PUFFSATCHEL_KIND_PIPE_EQ = 62,          /* `|=` */
    PUFFSATCHEL_KIND_PIPE_PIPE = 63,        /* `||` */
    PUFFSATCHEL_KIND_DOT_DOT_EQ = 64,       /* `..=` */
    PUFFSATCHEL_KIND_LT_LT_EQ = 65,         /* `<<=` */
    PUFFSATCHEL_KIND_GT_GT_EQ = 66,         /* `>>=` */
    PUFFSATCHEL_KIND_EOF = 67,              /* the end of the source */
    /* tools/texts.py ends kinds */
};

/* The numbers of refusals; 0 is none. The span is of what cannot be read: a point with 2 and 4, and with 3 the token that found no room.
 * It is 0..0 with 1, 5, 6 and 30 to 34, and with 3 where all is written or nothing. With 40 to 43 start and end name the record, from 0 on. */
enum {
    PUFFSATCHEL_ACCEPTED = 0,
    /* tools/texts.py writes refusals, from texts.txt */

    /* A source, a place, memory. */
    PUFFSATCHEL_TOO_LONG = 1,        /* the source is over 65,536 bytes */
    PUFFSATCHEL_ILL_FORMED = 2,      /* the source is not UTF-8 from here on */
    PUFFSATCHEL_NO_ROOM = 3,         /* the lent memory is full */
    PUFFSATCHEL_NO_PLACE = 4,        /* the place is past the end or inside a character */
    PUFFSATCHEL_NO_SUCH_FORM = 5,    /* the number names no form of a body */
    PUFFSATCHEL_NO_SUCH_READING = 6, /* the number names no reading */

    /* A token. */
    PUFFSATCHEL_EXPECTED_ESCAPE = 10,           /* the source ends after a backslash */
    PUFFSATCHEL_UNTERMINATED_CHAR_LIT = 11,     /* a control character stands in a char */
    PUFFSATCHEL_EXPECTED_CHAR_CLOSE = 12,       /* a char is empty */
    PUFFSATCHEL_EXPECTED_CHAR_OR_LABEL = 13,    /* the source ends after a single quote */
    PUFFSATCHEL_EXPECTED_BYTE_CLOSE = 14,       /* the source ends in a byte */
    PUFFSATCHEL_UNTERMINATED_BYTE_LIT = 15,     /* a control character stands in a byte */
    PUFFSATCHEL_UNTERMINATED_STR_LIT = 16,      /* the source ends in a string */
    PUFFSATCHEL_UNTERMINATED_BYTE_STR_LIT = 17, /* the source ends in a byte string */
    PUFFSATCHEL_UNEXPECTED_CHAR = 18,           /* no token begins with this character */
    PUFFSATCHEL_TOO_DEEP = 19,                  /* a 65th template is opened within templates */

    /* A body. */
    PUFFSATCHEL_BAD_ESCAPE_SEQUENCE = 20,               /* there is no such escape in this form of body */
    PUFFSATCHEL_BAD_UNICODE_ESCAPE_IN_BYTE_STRING = 21, /* there is no Unicode escape in bytes */
    PUFFSATCHEL_BAD_UNICODE_ESCAPE = 22,                /* the Unicode escape names no scalar */
    PUFFSATCHEL_BAD_HEX_ESCAPE_CHAR = 23,               /* `\x` is above 7f in text */
    PUFFSATCHEL_BAD_BYTE_ESCAPE = 24,                   /* two hex digits do not follow `\x` */
    PUFFSATCHEL_NOT_ASCII = 25,                         /* a scalar above U+007F stands in bytes */
    PUFFSATCHEL_OUTPUT_SHORT = 26,                      /* what the body stands for does not fit */
    PUFFSATCHEL_NOT_ONE_ITEM = 27,                      /* a char or a byte holds none or more than one */

    /* The lookahead. */
    PUFFSATCHEL_TOO_FAR = 30,      /* the lookahead holds at most 8 tokens */
    PUFFSATCHEL_WAITING_FULL = 31, /* a 257th token of white space would wait */
    PUFFSATCHEL_PAST_HELD = 32,    /* the advance goes past the held tokens */
    PUFFSATCHEL_STORE_SHORT = 33,  /* the store is too short for what would be emitted */
    PUFFSATCHEL_FAULTY = 34,       /* the list is faulty, or the state is not this list's */

    /* A stored list. */
    PUFFSATCHEL_BAD_LENGTH = 40, /* the length is no whole number of records */
    PUFFSATCHEL_BAD_MARK = 41,   /* the record does not begin with its mark */
    PUFFSATCHEL_BAD_KIND = 42,   /* the record's kind is outside 1 to 66 */
    PUFFSATCHEL_GAP = 43,        /* the record is empty, or does not begin where the one before it ended */
    /* tools/texts.py ends refusals */
};

/* The codes of findings. 60 and 61 are of a comment, or of a template where the byte at start is a backtick. */
enum {
    /* tools/texts.py writes findings, from texts.txt */
    PUFFSATCHEL_RUNS_ON = 60,           /* this comment does not end where it seems to; more than white space and comments stands in the stretch, and it is not in force */
    PUFFSATCHEL_RUNS_ON_BLANK = 61,     /* this comment does not end where it seems to; only white space and comments stand in the stretch */
    PUFFSATCHEL_READ_AS_CODE = 62,      /* this is in force, though it looks like a comment; the stretch is that comment */
    PUFFSATCHEL_COMMENT_UNCLOSED = 63,  /* nothing closes this comment; all text after its opening is comment */
    PUFFSATCHEL_TEMPLATE_UNCLOSED = 64, /* nothing closes this template; all text after its opening is template */
    PUFFSATCHEL_BYTE_ORDER_MARK = 65,   /* the file begins with a byte order mark, and rune refuses it; refusal 18 follows it */
    /* tools/texts.py ends findings */
};

/* How a source is read, which the caller names in every call that reads one: one number of or-ed names, one name for each part. In this version
 * the part is comments alone; later parts take other bits (0x10, 0x20 ..). A number that names no reading, 0 too, is refused with 6 before all
 * else, and nothing is written but the answer.
 *
 * Slash star opens a comment, star slash closes it. The crate's reading is that of the running rune; by the other a comment ends where a reader
 * thinks that it ends. */
enum {
    PUFFSATCHEL_COMMENTS_CRATE = 1, /* two scalars after the opening are passed over, then the first star slash closes, as rune has it */
    PUFFSATCHEL_COMMENTS_FIRST = 2  /* the first star slash after the opening closes */
};

/* The forms of a body: what stands between the quotes. */
enum {
    PUFFSATCHEL_FORM_TEXT = 1,
    PUFFSATCHEL_FORM_TEMPLATE = 2,
    PUFFSATCHEL_FORM_CHAR = 3,
    PUFFSATCHEL_FORM_BYTE_TEXT = 4,
    PUFFSATCHEL_FORM_BYTE = 5
};

/* The archive's version. */
uint32_t puffsatchel_version(void);

/* Tests a source: 1 or 2, or 0 for a source that can be read. Every call that takes a source tests it so, but puffsatchel_next. */
uint32_t puffsatchel_test(const uint8_t *source, size_t source_len, puffsatchel_answer *answer);

/* Reads the token at a place: value is its kind, start to end its span. At the end of the source value is 67 and the span a point.
 * Refuses with 6, 1, 2, 4, then 10 to 19. */
uint32_t puffsatchel_read(const uint8_t *source, size_t source_len, uint32_t reading, size_t at, puffsatchel_answer *answer);

/* The same for a source that puffsatchel_test has accepted and a place that a token ended at, and does not test them again: to read a source
 * token by token. On anything else it answers too, and reads no byte outside the source; but an ill-formed part counts as the end.
 * Refuses with 6, then 10 to 19. */
uint32_t puffsatchel_next(const uint8_t *source, size_t source_len, uint32_t reading, size_t at, puffsatchel_answer *answer);

/* Lists the tokens of a source, three words each, from the store's first word on; count is of stored tokens. Stops at the first refusal
 * (6, 1, 2, 10 to 19, and 3 for the token that found no three words). The tokens before it stay stored, all later words are unchanged. */
uint32_t puffsatchel_list(const uint8_t *source, size_t source_len, uint32_t reading, uint32_t *store, size_t store_len, puffsatchel_answer *answer);

/* Writes the source with x over every byte inside strings, byte strings, comments and templates; from a refused token on it is copied, and
 * the refusal (10 to 19) is the result. 6, 1, 2, and 3 for an out shorter than the source, write nothing. Later bytes are unchanged. */
uint32_t puffsatchel_outline(const uint8_t *source, size_t source_len, uint32_t reading, uint8_t *out, size_t out_len, puffsatchel_answer *answer);

/* Finds what the writer of a source would want to know, and stores five words each, from the store's first word on: the code (60 to 65), start and
 * end of a token, and a stretch of the source, from one place to before another. They come in the order of places; count is of stored findings.
 *
 * The tokens are those of the reading named. Where that is the crate's, they are compared with those to the first close, which are what a person
 * sees; with nothing found both lists are the same. What the stretch is:
 *     60, 61    between the two ends. As a rule `to` is the token's end, and the stretch is comment though it does not look it. Where `from`
 *               is the token's end (a template may end sooner), the stretch is in force though it looks like text of the template.
 *     62        the comment that the token seems to be inside; each such token is a finding.
 *     63 to 65  a point at the token's end. Before 63 the same comment may have a 60 or a 61.
 *
 * Stops at the first refusal (6, 1, 2, then 10 to 19 where reading stops, and 3 for the finding that found no five words: its span is the
 * refusal's). The findings before it stay stored, all later words are unchanged. Five words for each byte of the source are always enough. */
uint32_t puffsatchel_findings(const uint8_t *source, size_t source_len, uint32_t reading, uint32_t *store, size_t store_len, puffsatchel_answer *answer);

/* Writes what a body stands for, its escapes read by one of the five forms; count is of written bytes, never more than the body has.
 * Refuses with 5, 1, 2, the earliest of 20 to 25, 27, 26, and then writes nothing. Later bytes are unchanged. */
uint32_t puffsatchel_unescape(const uint8_t *body, size_t body_len, uint32_t form, uint8_t *out, size_t out_len, puffsatchel_answer *answer);

/* Writes a token list (as puffsatchel_list stores it, count * 3 words) as records of 11 bytes; count is of written bytes.
 * Refuses with 40, then by record with 42 and 43, then with 3, and then writes nothing. Later bytes are unchanged. */
uint32_t puffsatchel_store(const uint32_t *list, size_t list_len, uint8_t *out, size_t out_len, puffsatchel_answer *answer);

/* Reads records back into a token list; count is of written words.
 * Refuses with 40, then by record with 41, 42 and 43, then with 3, and then writes nothing. Later words are unchanged. */
uint32_t puffsatchel_load(const uint8_t *bytes, size_t bytes_len, uint32_t *out, size_t out_len, puffsatchel_answer *answer);

/* The lookahead over a token list: the state, which the caller keeps and lends to each call together with the list, always the same one.
 * A fresh state is zero but for keep:
 *     puffsatchel_ahead state = PUFFSATCHEL_AHEAD_KEEP;      white space is emitted with the token after it
 *     puffsatchel_ahead state = PUFFSATCHEL_AHEAD_DROP;      white space is dropped
 * White space is the kinds 1 to 4. Whatever bytes a state holds, each call answers, and refuses with 34 a state
 * that cannot be this list's. */
typedef struct puffsatchel_ahead {
    uint32_t next;          /* the first token of the list that was not read */
    uint32_t keep;          /* 0: white space is dropped */
    uint32_t held_at;       /* where the rings begin, and how many they have */
    uint32_t held_len;
    uint32_t wait_at;
    uint32_t wait_len;
    uint32_t held[8];       /* tokens by their number in the list, in a ring */
    uint32_t counts[8];     /* how many of those that wait stand before each */
    uint32_t waiting[256];  /* white space by its number in the list, in a ring */
} puffsatchel_ahead;

#define PUFFSATCHEL_AHEAD_KEEP {0, 1, 0, 0, 0, 0, {0}, {0}, {0}}
#define PUFFSATCHEL_AHEAD_DROP {0, 0, 0, 0, 0, 0, {0}, {0}, {0}}

/* Does not compile where the state has another size than in the archive. */
typedef char puffsatchel_ahead_size[sizeof(puffsatchel_ahead) == PUFFSATCHEL_AHEAD_BYTES ? 1 : -1];

/* With tested = 0 each call tests the list and the state first, and refuses with 34 what is faulty; that costs the list's length at each call.
 * With another number they were tested before, and are not again: the list is one that puffsatchel_list wrote, or that puffsatchel_store or
 * puffsatchel_load has accepted, and the state a fresh one, or one that these calls left over this list. On any other list or state the calls
 * answer too, and touch no word outside of what is lent; but of its faults only numbers outside the rings and the list are refused with 34.
 *
 * These six write nothing but the state. They refuse with 34, 30, 31, and then leave it as it was. Past the end every token is 67, a point there. */

/* Reads until n + 1 tokens are held or the list ends. */
uint32_t puffsatchel_fill(puffsatchel_ahead *state, uint32_t tested, size_t n, const uint32_t *list, size_t list_len, puffsatchel_answer *answer);

/* The kind of the next token, in value. */
uint32_t puffsatchel_peek(puffsatchel_ahead *state, uint32_t tested, const uint32_t *list, size_t list_len, puffsatchel_answer *answer);

/* The kind of the n-th token from the next one on, in value. */
uint32_t puffsatchel_nth(puffsatchel_ahead *state, uint32_t tested, size_t n, const uint32_t *list, size_t list_len, puffsatchel_answer *answer);

/* The same with its span, in start and end. */
uint32_t puffsatchel_nth_token(puffsatchel_ahead *state, uint32_t tested, size_t n, const uint32_t *list, size_t list_len, puffsatchel_answer *answer);

/* The kind of the n-th token where no white space stands before it, else 67. With white space dropped none stands there. */
uint32_t puffsatchel_glued(puffsatchel_ahead *state, uint32_t tested, size_t n, const uint32_t *list, size_t list_len, puffsatchel_answer *answer);

/* 1 in value where no token is left, else 0. */
uint32_t puffsatchel_is_eof(puffsatchel_ahead *state, uint32_t tested, const uint32_t *list, size_t list_len, puffsatchel_answer *answer);

/* These write what they emit, three words a token, from the first word of out on; count is of written tokens. They refuse with 34, 31 and 33 (out
 * is short), and then leave state and out as they were. Later words are unchanged. */

/* Emits the white space before the next token, or before the list's end; start and end are a point there. */
uint32_t puffsatchel_flush_ws(puffsatchel_ahead *state, uint32_t tested, const uint32_t *list, size_t list_len, uint32_t *out, size_t out_len, puffsatchel_answer *answer);

/* Emits the white space before the next token and then the token, and gives its kind and span; at the end an end-of-file token, each time. */
uint32_t puffsatchel_bump(puffsatchel_ahead *state, uint32_t tested, const uint32_t *list, size_t list_len, uint32_t *out, size_t out_len, puffsatchel_answer *answer);

/* Does so if the next token is of the kind: value is 1 then, else 0. */
uint32_t puffsatchel_bump_if(puffsatchel_ahead *state, uint32_t tested, uint32_t kind, const uint32_t *list, size_t list_len, uint32_t *out, size_t out_len, puffsatchel_answer *answer);

/* Does so as long as the next token is of the kind: value is 1 if any was. For kind 67 at the end, where it would never stop, 33. */
uint32_t puffsatchel_bump_while(puffsatchel_ahead *state, uint32_t tested, uint32_t kind, const uint32_t *list, size_t list_len, uint32_t *out, size_t out_len, puffsatchel_answer *answer);

/* Emits n tokens that are held, each after the white space before it, and reads none. 32 (and not 31) where fewer are held. */
uint32_t puffsatchel_advance(puffsatchel_ahead *state, uint32_t tested, size_t n, const uint32_t *list, size_t list_len, uint32_t *out, size_t out_len, puffsatchel_answer *answer);

/* Writes the next n tokens and emits none of them: they stay. 30 where n is above 8. */
uint32_t puffsatchel_array(puffsatchel_ahead *state, uint32_t tested, size_t n, const uint32_t *list, size_t list_len, uint32_t *out, size_t out_len, puffsatchel_answer *answer);

/* Texts, in English: what a kind is, what a refusal means and what to do about it, and the same of a finding, where first is the byte at the
 * start of its record: it tells a template from a comment. */

/* tools/texts.py writes texts, from texts.txt */
static inline const char *puffsatchel_kind_text(uint32_t kind)
{
    switch (kind) {
    case PUFFSATCHEL_KIND_WHITESPACE: return "white space";
    case PUFFSATCHEL_KIND_COMMENT: return "a comment to the end of the line";
    case PUFFSATCHEL_KIND_MULTILINE_COMMENT: return "a closed comment";
    case PUFFSATCHEL_KIND_UNCLOSED_COMMENT: return "a comment that nothing closes";
    case PUFFSATCHEL_KIND_SHEBANG: return "a shebang";
    case PUFFSATCHEL_KIND_IDENT: return "a word";
    case PUFFSATCHEL_KIND_UNDERSCORE: return "a lone `_`";
    case PUFFSATCHEL_KIND_NUMBER: return "a number";
    case PUFFSATCHEL_KIND_CHAR: return "a char";
    case PUFFSATCHEL_KIND_BYTE: return "a byte";
    case PUFFSATCHEL_KIND_STR: return "a string";
    case PUFFSATCHEL_KIND_ESCAPED_STR: return "a string with a backslash in it";
    case PUFFSATCHEL_KIND_BYTE_STR: return "a byte string";
    case PUFFSATCHEL_KIND_ESCAPED_BYTE_STR: return "a byte string with a backslash in it";
    case PUFFSATCHEL_KIND_LABEL: return "a label";
    case PUFFSATCHEL_KIND_TEMPLATE: return "a template";
    case PUFFSATCHEL_KIND_BANG: return "`!`";
    case PUFFSATCHEL_KIND_POUND: return "`#`";
    case PUFFSATCHEL_KIND_DOLLAR: return "`$`";
    case PUFFSATCHEL_KIND_PERC: return "`%`";
    case PUFFSATCHEL_KIND_AMP: return "`&`";
    case PUFFSATCHEL_KIND_OPEN_ROUND: return "`(`";
    case PUFFSATCHEL_KIND_CLOSE_ROUND: return "`)`";
    case PUFFSATCHEL_KIND_STAR: return "`*`";
    case PUFFSATCHEL_KIND_PLUS: return "`+`";
    case PUFFSATCHEL_KIND_COMMA: return "`,`";
    case PUFFSATCHEL_KIND_DASH: return "`-`";
    case PUFFSATCHEL_KIND_DOT: return "`.`";
    case PUFFSATCHEL_KIND_DIV: return "`/`";
    case PUFFSATCHEL_KIND_COLON: return "`:`";
    case PUFFSATCHEL_KIND_SEMI_COLON: return "`;`";
    case PUFFSATCHEL_KIND_LT: return "`<`";
    case PUFFSATCHEL_KIND_EQ: return "`=`";
    case PUFFSATCHEL_KIND_GT: return "`>`";
    case PUFFSATCHEL_KIND_QUESTION_MARK: return "`?`";
    case PUFFSATCHEL_KIND_AT: return "`@`";
    case PUFFSATCHEL_KIND_OPEN_SQUARE: return "`[`";
    case PUFFSATCHEL_KIND_CLOSE_SQUARE: return "`]`";
    case PUFFSATCHEL_KIND_CARET: return "`^`";
    case PUFFSATCHEL_KIND_OPEN_CURLY: return "`{`";
    case PUFFSATCHEL_KIND_PIPE: return "`|`";
    case PUFFSATCHEL_KIND_CLOSE_CURLY: return "`}`";
    case PUFFSATCHEL_KIND_TILDE: return "`~`";
    case PUFFSATCHEL_KIND_BANG_EQ: return "`!=`";
    case PUFFSATCHEL_KIND_PERC_EQ: return "`%=`";
    case PUFFSATCHEL_KIND_AMP_AMP: return "`&&`";
    case PUFFSATCHEL_KIND_AMP_EQ: return "`&=`";
    case PUFFSATCHEL_KIND_STAR_EQ: return "`*=`";
    case PUFFSATCHEL_KIND_PLUS_EQ: return "`+=`";
    case PUFFSATCHEL_KIND_DASH_EQ: return "`-=`";
    case PUFFSATCHEL_KIND_ARROW: return "`->`";
    case PUFFSATCHEL_KIND_DOT_DOT: return "`..`";
    case PUFFSATCHEL_KIND_SLASH_EQ: return "`/=`";
    case PUFFSATCHEL_KIND_COLON_COLON: return "`::`";
    case PUFFSATCHEL_KIND_LT_LT: return "`<<`";
    case PUFFSATCHEL_KIND_LT_EQ: return "`<=`";
    case PUFFSATCHEL_KIND_EQ_EQ: return "`==`";
    case PUFFSATCHEL_KIND_ROCKET: return "`=>`";
    case PUFFSATCHEL_KIND_GT_EQ: return "`>=`";
    case PUFFSATCHEL_KIND_GT_GT: return "`>>`";
    case PUFFSATCHEL_KIND_CARET_EQ: return "`^=`";
    case PUFFSATCHEL_KIND_PIPE_EQ: return "`|=`";
    case PUFFSATCHEL_KIND_PIPE_PIPE: return "`||`";
    case PUFFSATCHEL_KIND_DOT_DOT_EQ: return "`..=`";
    case PUFFSATCHEL_KIND_LT_LT_EQ: return "`<<=`";
    case PUFFSATCHEL_KIND_GT_GT_EQ: return "`>>=`";
    case PUFFSATCHEL_KIND_EOF: return "the end of the source";
    default: return "a number that this header has no text for; use the puffsatchel.h that stands beside the archive";
    }
}

static inline const char *puffsatchel_refusal_text(uint32_t refusal)
{
    switch (refusal) {
    case PUFFSATCHEL_ACCEPTED: return "nothing was refused";
    case PUFFSATCHEL_TOO_LONG: return "the source is over 65,536 bytes; split it";
    case PUFFSATCHEL_ILL_FORMED: return "the source is not UTF-8 from here on; save it as UTF-8";
    case PUFFSATCHEL_NO_ROOM: return "the lent memory is full; lend more";
    case PUFFSATCHEL_NO_PLACE: return "the place is past the end or inside a character; begin where a token ended";
    case PUFFSATCHEL_NO_SUCH_FORM: return "the number names no form of a body; give 1 to 5";
    case PUFFSATCHEL_NO_SUCH_READING: return "the number names no reading; give 1 or 2";
    case PUFFSATCHEL_EXPECTED_ESCAPE: return "the source ends after a backslash; finish the escape and close the literal";
    case PUFFSATCHEL_UNTERMINATED_CHAR_LIT: return "a control character stands in a char; close the char before it, or write an escape";
    case PUFFSATCHEL_EXPECTED_CHAR_CLOSE: return "a char is empty; put a character between its quotes";
    case PUFFSATCHEL_EXPECTED_CHAR_OR_LABEL: return "the source ends after a single quote; write a char or a label";
    case PUFFSATCHEL_EXPECTED_BYTE_CLOSE: return "the source ends in a byte; close it with a single quote";
    case PUFFSATCHEL_UNTERMINATED_BYTE_LIT: return "a control character stands in a byte; close the byte before it, or write an escape";
    case PUFFSATCHEL_UNTERMINATED_STR_LIT: return "the source ends in a string; close it with a quote";
    case PUFFSATCHEL_UNTERMINATED_BYTE_STR_LIT: return "the source ends in a byte string; close it with a quote";
    case PUFFSATCHEL_UNEXPECTED_CHAR: return "no token begins with this character; take it out, or put it in a string or a comment";
    case PUFFSATCHEL_TOO_DEEP: return "a 65th template is opened within templates; take one out into a variable";
    case PUFFSATCHEL_BAD_ESCAPE_SEQUENCE: return "there is no such escape in this form of body; double the backslash, or use an escape of this form";
    case PUFFSATCHEL_BAD_UNICODE_ESCAPE_IN_BYTE_STRING: return "there is no Unicode escape in bytes; write its bytes as `\\x..`";
    case PUFFSATCHEL_BAD_UNICODE_ESCAPE: return "the Unicode escape names no scalar; write `\\u{..}` with the hex digits of a scalar";
    case PUFFSATCHEL_BAD_HEX_ESCAPE_CHAR: return "`\\x` is above 7f in text; write `\\u{..}`";
    case PUFFSATCHEL_BAD_BYTE_ESCAPE: return "two hex digits do not follow `\\x`; write both digits";
    case PUFFSATCHEL_NOT_ASCII: return "a scalar above U+007F stands in bytes; write its bytes as `\\x..`";
    case PUFFSATCHEL_OUTPUT_SHORT: return "what the body stands for does not fit; lend as many bytes as the body has";
    case PUFFSATCHEL_NOT_ONE_ITEM: return "a char or a byte holds none or more than one; write exactly one, or make it a string";
    case PUFFSATCHEL_TOO_FAR: return "the lookahead holds at most 8 tokens; ask for 0 to 7, and for an array of up to 8";
    case PUFFSATCHEL_WAITING_FULL: return "a 257th token of white space would wait; drop white space, or read the list itself";
    case PUFFSATCHEL_PAST_HELD: return "the advance goes past the held tokens; fill first";
    case PUFFSATCHEL_STORE_SHORT: return "the store is too short for what would be emitted; lend more and call again";
    case PUFFSATCHEL_FAULTY: return "the list is faulty, or the state is not this list's; begin again with a listed source and a fresh state";
    case PUFFSATCHEL_BAD_LENGTH: return "the length is no whole number of records; give the list whole";
    case PUFFSATCHEL_BAD_MARK: return "the record does not begin with its mark; give bytes that `store` has written";
    case PUFFSATCHEL_BAD_KIND: return "the record's kind is outside 1 to 66; give a list that a source was listed to";
    case PUFFSATCHEL_GAP: return "the record is empty, or does not begin where the one before it ended; give the tokens in order, none left out";
    default: return "a number that this header has no text for; use the puffsatchel.h that stands beside the archive";
    }
}

static inline const char *puffsatchel_finding_text(uint32_t code, uint8_t first)
{
    switch (code) {
    case PUFFSATCHEL_RUNS_ON:
    case PUFFSATCHEL_RUNS_ON_BLANK:
        return first == '`'
            ? "this template does not end where it seems to; take the comment after the backslash out of the template"
            : "this comment does not end where it seems to; write `/*  */` with two blanks, or use `//`";
    case PUFFSATCHEL_READ_AS_CODE:
        return "this is in force, though it looks like a comment; mend the comment before it that runs on";
    case PUFFSATCHEL_COMMENT_UNCLOSED:
        return "nothing closes this comment; close it with `*/`";
    case PUFFSATCHEL_TEMPLATE_UNCLOSED:
        return "nothing closes this template; close it with a backtick";
    case PUFFSATCHEL_BYTE_ORDER_MARK:
        return "the file begins with a byte order mark, and rune refuses it; save the file as UTF-8 without a byte order mark";
    default: return "a number that this header has no text for; use the puffsatchel.h that stands beside the archive";
    }
}
/* tools/texts.py ends texts */

#ifdef __cplusplus
}
#endif

#endif
