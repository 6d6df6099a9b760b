/* Every call of the library but the lookahead's (look.c), on good and bad input. What is expected is document 01's, not what the library once answered.
 * Before each call the lent memory is filled with a mark, and afterwards all of it is compared: what was written and what was not.
 * What is only read stands before a page that cannot be touched: a byte too many ends the test. */
#include "expect.h"

static uint8_t *last;

/* What each call that reads a source is told. What is expected of comments is apart; all else is the same under both readings. */
static uint32_t reading;

static const uint8_t *bytes(const char *text, size_t len) {
    if (len != 0) memcpy(last - len, text, len);
    return last - len;
}

static uint32_t test(const char *text, size_t len) {
    forget();
    return puffsatchel_test(bytes(text, len), len, &answer);
}

static uint32_t read_at(const char *text, size_t len, size_t at) {
    forget();
    return puffsatchel_read(bytes(text, len), len, reading, at, &answer);
}

static uint32_t next_at(const char *text, size_t len, size_t at) {
    forget();
    return puffsatchel_next(bytes(text, len), len, reading, at, &answer);
}

#define READ(text, at) read_at(text, sizeof(text) - 1, at)
#define NEXT(text, at) next_at(text, sizeof(text) - 1, at)
#define TEST(text) test(text, sizeof(text) - 1)

/* A store of room words with more after it, which no call may touch. */
static uint32_t store[64];

static uint32_t list(const char *text, size_t len, size_t room) {
    size_t i;
    for (i = 0; i < 64; i++) store[i] = MARK_WORD;
    forget();
    return puffsatchel_list(bytes(text, len), len, reading, store, room, &answer);
}

static int stored(const uint32_t *words, size_t count) {
    size_t i;
    for (i = 0; i < 64; i++)
        if (store[i] != (i < count ? words[i] : MARK_WORD)) return 0;
    return 1;
}

#define LIST(text, room) list(text, sizeof(text) - 1, room)
#define STORED(...) stored(words_##__VA_ARGS__, sizeof words_##__VA_ARGS__ / sizeof(uint32_t))

static uint8_t out[64];

static void clear_out(void) {
    memset(out, (int)MARK, sizeof out);
    forget();
}

static int wrote(const char *text, size_t len) {
    size_t i;
    for (i = 0; i < sizeof out; i++)
        if (out[i] != (i < len ? (uint8_t)text[i] : MARK)) return 0;
    return 1;
}

#define WROTE(text) wrote(text, sizeof(text) - 1)

static uint32_t outline(const char *text, size_t len, size_t room) {
    clear_out();
    return puffsatchel_outline(bytes(text, len), len, reading, out, room, &answer);
}

static uint32_t unescape(const char *text, size_t len, uint32_t form, size_t room) {
    clear_out();
    return puffsatchel_unescape(bytes(text, len), len, form, out, room, &answer);
}

#define OUTLINE(text, room) outline(text, sizeof(text) - 1, room)
#define UNESCAPE(text, form, room) unescape(text, sizeof(text) - 1, form, room)

static void tests_a_source(void) {
    EXPECT(TEST("a;") == 0 && answered(0, 0, 0, 0, 0));
    EXPECT(TEST("") == 0 && answered(0, 0, 0, 0, 0));
    EXPECT(TEST("ab\xff") == PUFFSATCHEL_ILL_FORMED && answered(0, 0, 2, 2, 2));
    EXPECT(TEST("\xc3") == PUFFSATCHEL_ILL_FORMED && answered(0, 0, 0, 0, 0));
    EXPECT(TEST("\xed\xa0\x80") == PUFFSATCHEL_ILL_FORMED && answered(0, 0, 0, 0, 0));
}

static void reads_a_token(void) {
    EXPECT(READ("", 0) == 0 && answered(PUFFSATCHEL_KIND_EOF, 0, 0, 0, 0));
    EXPECT(READ("a;", 0) == 0 && answered(PUFFSATCHEL_KIND_IDENT, 0, 0, 1, 1));
    EXPECT(READ("a;", 1) == 0 && answered(PUFFSATCHEL_KIND_SEMI_COLON, 0, 1, 2, 2));
    EXPECT(READ("a;", 2) == 0 && answered(PUFFSATCHEL_KIND_EOF, 0, 2, 2, 2));
    EXPECT(READ("/*", 0) == 0 && answered(PUFFSATCHEL_KIND_UNCLOSED_COMMENT, 0, 0, 2, 2));
    EXPECT(READ("/*/", 0) == 0 && answered(PUFFSATCHEL_KIND_UNCLOSED_COMMENT, 0, 0, 3, 3));
    EXPECT(READ("/*ab*/", 0) == 0 && answered(PUFFSATCHEL_KIND_MULTILINE_COMMENT, 0, 0, 6, 6));
    EXPECT(READ("'A", 0) == 0 && answer.value == PUFFSATCHEL_KIND_CHAR);
    EXPECT(READ("'a", 0) == 0 && answer.value == PUFFSATCHEL_KIND_LABEL);
    EXPECT(READ("...", 0) == 0 && answered(PUFFSATCHEL_KIND_DOT_DOT, 0, 0, 2, 2));
    EXPECT(READ("...", 2) == 0 && answered(PUFFSATCHEL_KIND_DOT, 0, 2, 3, 3));
    EXPECT(READ("`}`", 0) == 0 && answered(PUFFSATCHEL_KIND_TEMPLATE, 0, 0, 3, 3));
    EXPECT(READ("`\\''`", 0) == 0 && answered(PUFFSATCHEL_KIND_TEMPLATE, 0, 0, 5, 5));
    EXPECT(READ("#!x\n", 0) == 0 && answered(PUFFSATCHEL_KIND_SHEBANG, 0, 0, 3, 3));
    EXPECT(READ("\"\"", 0) == 0 && answered(PUFFSATCHEL_KIND_STR, 0, 0, 2, 2));
    EXPECT(READ("b\"\\x\"", 0) == 0 && answered(PUFFSATCHEL_KIND_ESCAPED_BYTE_STR, 0, 0, 5, 5));
}

static void refuses_a_token(void) {
    EXPECT(READ("'a\n", 0) == PUFFSATCHEL_UNTERMINATED_CHAR_LIT && answered(0, 0, 0, 2, 2));
    EXPECT(READ("''", 0) == PUFFSATCHEL_EXPECTED_CHAR_CLOSE && answered(0, 0, 0, 2, 2));
    EXPECT(READ("'';;", 0) == PUFFSATCHEL_EXPECTED_CHAR_CLOSE && answered(0, 0, 0, 4, 2));
    EXPECT(READ("a'", 1) == PUFFSATCHEL_EXPECTED_CHAR_OR_LABEL && answered(0, 0, 1, 2, 2));
    EXPECT(READ("\"a\\", 0) == PUFFSATCHEL_EXPECTED_ESCAPE && answered(0, 0, 2, 3, 3));
    EXPECT(READ("b'a", 0) == PUFFSATCHEL_EXPECTED_BYTE_CLOSE && answered(0, 0, 0, 3, 3));
    EXPECT(READ("b'a\n'", 0) == PUFFSATCHEL_UNTERMINATED_BYTE_LIT && answered(0, 0, 0, 4, 4));
    EXPECT(READ("\"a", 0) == PUFFSATCHEL_UNTERMINATED_STR_LIT && answered(0, 0, 0, 2, 2));
    EXPECT(READ("b\"a", 0) == PUFFSATCHEL_UNTERMINATED_BYTE_STR_LIT && answered(0, 0, 0, 3, 3));
    EXPECT(READ("\\", 0) == PUFFSATCHEL_UNEXPECTED_CHAR && answered(0, 0, 0, 1, 1));
}

static void refuses_a_place(void) {
    EXPECT(READ("a;", 3) == PUFFSATCHEL_NO_PLACE && answered(0, 0, 3, 3, 3));
    EXPECT(READ("\xc3\xa9", 1) == PUFFSATCHEL_NO_PLACE && answered(0, 0, 1, 1, 1));
    EXPECT(READ("a", SIZE_MAX) == PUFFSATCHEL_NO_PLACE && answered(0, 0, SIZE_MAX, SIZE_MAX, SIZE_MAX));
    EXPECT(READ("a\xff", 9) == PUFFSATCHEL_ILL_FORMED && answered(0, 0, 1, 1, 1));
}

static void reads_on(void) {
    EXPECT(NEXT("a;", 0) == 0 && answered(PUFFSATCHEL_KIND_IDENT, 0, 0, 1, 1));
    EXPECT(NEXT("a;", 1) == 0 && answered(PUFFSATCHEL_KIND_SEMI_COLON, 0, 1, 2, 2));
    EXPECT(NEXT("a;", 2) == 0 && answered(PUFFSATCHEL_KIND_EOF, 0, 2, 2, 2));
    EXPECT(NEXT("''", 0) == PUFFSATCHEL_EXPECTED_CHAR_CLOSE && answered(0, 0, 0, 2, 2));
    /* Not tested: it answers all the same. */
    next_at("a\xff", 2, 1);
    next_at("a", 1, SIZE_MAX);
    next_at("a", 0, 0);
    EXPECT(answered(PUFFSATCHEL_KIND_EOF, 0, 0, 0, 0));
}

static void lists(void) {
    static const uint32_t words_one[] = {6, 0, 1, 31, 1, 2};
    static const uint32_t words_two[] = {15, 0, 2, 1, 2, 3, 6, 3, 4};
    static const uint32_t words_byte[] = {10, 0, 4};
    static const uint32_t words_first[] = {6, 0, 1};
    EXPECT(LIST("a;", 6) == 0 && answered(0, 2, 0, 0, 0) && STORED(one));
    EXPECT(LIST("a;", 64) == 0 && answered(0, 2, 0, 0, 0) && STORED(one));
    EXPECT(LIST("'a b", 64) == 0 && answered(0, 3, 0, 0, 0) && STORED(two));
    EXPECT(LIST("b'\\''", 64) == PUFFSATCHEL_EXPECTED_CHAR_OR_LABEL && answered(0, 1, 4, 5, 5) && STORED(byte));
    EXPECT(LIST("a;", 5) == PUFFSATCHEL_NO_ROOM && answered(0, 1, 1, 2, 2) && STORED(first));
    EXPECT(LIST("a;", 2) == PUFFSATCHEL_NO_ROOM && answered(0, 0, 0, 1, 1) && stored(store, 0));
    EXPECT(LIST("a;", 0) == PUFFSATCHEL_NO_ROOM && answered(0, 0, 0, 1, 1) && stored(store, 0));
    EXPECT(LIST("", 0) == 0 && answered(0, 0, 0, 0, 0) && stored(store, 0));
    EXPECT(LIST("''", 0) == PUFFSATCHEL_EXPECTED_CHAR_CLOSE && answered(0, 0, 0, 2, 2) && stored(store, 0));
    EXPECT(LIST("a;\xc3", 64) == PUFFSATCHEL_ILL_FORMED && answered(0, 0, 2, 2, 2) && stored(store, 0));
}

/* The store is that of the lists. */
static uint32_t found(const char *text, size_t len, size_t room) {
    size_t i;
    for (i = 0; i < 64; i++) store[i] = MARK_WORD;
    forget();
    return puffsatchel_findings(bytes(text, len), len, reading, store, room, &answer);
}

#define FIND(text, room) found(text, sizeof(text) - 1, room)

/* What is found in either reading. */
static void finds(void) {
    static const uint32_t words_comment[] = {63, 2, 5, 5, 5};
    static const uint32_t words_template[] = {64, 0, 2, 2, 2};
    static const uint32_t words_mark[] = {65, 0, 3, 3, 3};
    EXPECT(FIND("", 0) == 0 && answered(0, 0, 0, 0, 0) && stored(store, 0));
    EXPECT(FIND("a; /*ab*/ `a` // b", 64) == 0 && answered(0, 0, 0, 0, 0) && stored(store, 0));
    EXPECT(FIND("a /*b", 64) == 0 && answered(0, 1, 0, 0, 0) && STORED(comment));
    EXPECT(FIND("a /*b", 5) == 0 && answered(0, 1, 0, 0, 0) && STORED(comment));
    EXPECT(FIND("a /*b", 4) == PUFFSATCHEL_NO_ROOM && answered(0, 0, 2, 5, 5) && stored(store, 0));
    EXPECT(FIND("a /*b", 0) == PUFFSATCHEL_NO_ROOM && answered(0, 0, 2, 5, 5) && stored(store, 0));
    EXPECT(FIND("`{`", 64) == 0 && answer.count == 1 && store[0] == PUFFSATCHEL_TEMPLATE_UNCLOSED && store[2] == 3);
    EXPECT(FIND("`a", 64) == 0 && answered(0, 1, 0, 0, 0) && STORED(template));
    EXPECT(FIND("\xef\xbb\xbf" "a", 64) == PUFFSATCHEL_UNEXPECTED_CHAR && answered(0, 1, 0, 3, 3) && STORED(mark));
    EXPECT(FIND("\xef\xbb\xbf" "a", 4) == PUFFSATCHEL_NO_ROOM && answered(0, 0, 0, 3, 3) && stored(store, 0));
    EXPECT(FIND("a \"b", 64) == PUFFSATCHEL_UNTERMINATED_STR_LIT && answered(0, 0, 2, 4, 4) && stored(store, 0));
    EXPECT(FIND("/*\xff", 64) == PUFFSATCHEL_ILL_FORMED && answered(0, 0, 2, 2, 2) && stored(store, 0));
}

/* Line ends of both kinds and none, bytes that are no text. */
static void finds_in_any_bytes(void) {
    char all[256];
    size_t i;
    for (i = 0; i < sizeof all; i++) all[i] = (char)i;
    EXPECT(found(all, sizeof all, 64) == PUFFSATCHEL_ILL_FORMED && answered(0, 0, 128, 128, 128) && stored(store, 0));
    EXPECT(found(all, 128, 64) == PUFFSATCHEL_UNEXPECTED_CHAR && answered(0, 0, 0, 1, 1) && stored(store, 0));
    EXPECT(FIND("a\0b", 64) == PUFFSATCHEL_UNEXPECTED_CHAR && answered(0, 0, 1, 2, 2) && stored(store, 0));
    EXPECT(FIND("// \0\n/*\0\0*/", 64) == 0 && answered(0, 0, 0, 0, 0) && stored(store, 0));
    EXPECT(FIND("/*a\xc3", 64) == PUFFSATCHEL_ILL_FORMED && answered(0, 0, 3, 3, 3) && stored(store, 0));
    EXPECT(FIND("a; // b\r\nc; /*  */\r\n", 64) == 0 && answered(0, 0, 0, 0, 0) && stored(store, 0));
    EXPECT(FIND("a;\n// b", 64) == 0 && answered(0, 0, 0, 0, 0) && stored(store, 0));
}

static void outlines(void) {
    EXPECT(OUTLINE("a\"b\"c", 5) == 0 && answered(0, 0, 0, 0, 0) && WROTE("a\"x\"c"));
    EXPECT(OUTLINE("//ab\n/*ab*/`}`", 64) == 0 && answered(0, 0, 0, 0, 0) && WROTE("//xx\n/*xx*/`xx"));
    EXPECT(OUTLINE("b\"\\x\" `a`", 64) == 0 && WROTE("b\"xx\" `x`"));
    EXPECT(OUTLINE("\"a\"'b'''", 64) == PUFFSATCHEL_EXPECTED_CHAR_CLOSE && answered(0, 0, 6, 8, 8) && WROTE("\"x\"'b'''"));
    EXPECT(OUTLINE("\"a\"", 2) == PUFFSATCHEL_NO_ROOM && answered(0, 0, 0, 0, 0) && WROTE(""));
    EXPECT(OUTLINE("\"a\"", 0) == PUFFSATCHEL_NO_ROOM && answered(0, 0, 0, 0, 0) && WROTE(""));
    EXPECT(OUTLINE("", 0) == 0 && answered(0, 0, 0, 0, 0) && WROTE(""));
    EXPECT(OUTLINE("\"a\"\xff", 64) == PUFFSATCHEL_ILL_FORMED && answered(0, 0, 3, 3, 3) && WROTE(""));
}

/* Two scalars after the opening are passed over, by number and not by bytes. */
static void comments_of_the_crate(void) {
    static const uint32_t words_all[] = {3, 0, 9};
    static const uint32_t words_template[] = {16, 0, 8};
    static const uint32_t words_hidden[] = {60, 0, 9, 4, 9};
    static const uint32_t words_note[] = {61, 0, 11, 4, 11};
    static const uint32_t words_open[] = {61, 0, 4, 4, 4, 63, 0, 4, 4, 4};
    static const uint32_t words_half[] = {61, 0, 4, 4, 4};
    static const uint32_t words_code[] = {61, 0, 11, 4, 11, 62, 12, 13, 5, 14, 62, 13, 14, 5, 14};
    static const uint32_t words_later[] = {60, 0, 8, 7, 8, 64, 0, 8, 8, 8};
    EXPECT(READ("/**/", 0) == 0 && answered(PUFFSATCHEL_KIND_UNCLOSED_COMMENT, 0, 0, 4, 4));
    EXPECT(READ("/* */", 0) == 0 && answered(PUFFSATCHEL_KIND_UNCLOSED_COMMENT, 0, 0, 5, 5));
    EXPECT(READ("/***/", 0) == 0 && answered(PUFFSATCHEL_KIND_UNCLOSED_COMMENT, 0, 0, 5, 5));
    EXPECT(READ("/*/*/", 0) == 0 && answered(PUFFSATCHEL_KIND_UNCLOSED_COMMENT, 0, 0, 5, 5));
    EXPECT(READ("/*\xc3\xa9*/", 0) == 0 && answered(PUFFSATCHEL_KIND_UNCLOSED_COMMENT, 0, 0, 6, 6));
    EXPECT(READ("/****/", 0) == 0 && answered(PUFFSATCHEL_KIND_MULTILINE_COMMENT, 0, 0, 6, 6));
    EXPECT(NEXT("/**/x/**/", 0) == 0 && answered(PUFFSATCHEL_KIND_MULTILINE_COMMENT, 0, 0, 9, 9));
    EXPECT(LIST("/**/x/**/", 64) == 0 && answered(0, 1, 0, 0, 0) && STORED(all));
    EXPECT(LIST("`\\/**/`x", 64) == 0 && answered(0, 1, 0, 0, 0) && STORED(template));
    EXPECT(FIND("/**/x/**/", 64) == 0 && answered(0, 1, 0, 0, 0) && STORED(hidden));
    EXPECT(FIND("/**/\r\n/* */\r\nx", 64) == 0 && answered(0, 1, 0, 0, 0) && STORED(note));
    EXPECT(FIND("/**/", 64) == 0 && answered(0, 2, 0, 0, 0) && STORED(open));
    EXPECT(FIND("/**/", 9) == PUFFSATCHEL_NO_ROOM && answered(0, 1, 0, 4, 4) && STORED(half));
    EXPECT(FIND("/**/ // a*/ b;", 64) == 0 && answered(0, 3, 0, 0, 0) && STORED(code));
    EXPECT(FIND("`\\/**/`x", 64) == 0 && answered(0, 2, 0, 0, 0) && STORED(later));
    EXPECT(FIND("`\\/**/`a` */`x", 64) == 0 && answer.count == 1 && store[0] == PUFFSATCHEL_RUNS_ON && store[3] == 7 && store[4] == 13);
    EXPECT(FIND("/**/a/**/ \"", 64) == PUFFSATCHEL_UNTERMINATED_STR_LIT && answered(0, 1, 10, 11, 11) && STORED(hidden));
    EXPECT(OUTLINE("/**/x/**/", 64) == 0 && answered(0, 0, 0, 0, 0) && WROTE("/*xxxxx*/"));
    EXPECT(OUTLINE("/*a*/b", 64) == 0 && answered(0, 0, 0, 0, 0) && WROTE("/*xxxx"));
    EXPECT(OUTLINE("`\\/**/`x", 64) == 0 && answered(0, 0, 0, 0, 0) && WROTE("`xxxxxxx"));
}

static void comments_to_the_first_close(void) {
    static const uint32_t words_all[] = {3, 0, 4, 6, 4, 5, 3, 5, 9};
    static const uint32_t words_template[] = {16, 0, 7, 6, 7, 8};
    EXPECT(READ("/**/", 0) == 0 && answered(PUFFSATCHEL_KIND_MULTILINE_COMMENT, 0, 0, 4, 4));
    EXPECT(READ("/* */", 0) == 0 && answered(PUFFSATCHEL_KIND_MULTILINE_COMMENT, 0, 0, 5, 5));
    EXPECT(READ("/***/", 0) == 0 && answered(PUFFSATCHEL_KIND_MULTILINE_COMMENT, 0, 0, 5, 5));
    EXPECT(READ("/*/*/", 0) == 0 && answered(PUFFSATCHEL_KIND_MULTILINE_COMMENT, 0, 0, 5, 5));
    EXPECT(READ("/*\xc3\xa9*/", 0) == 0 && answered(PUFFSATCHEL_KIND_MULTILINE_COMMENT, 0, 0, 6, 6));
    EXPECT(READ("/**/*/", 0) == 0 && answered(PUFFSATCHEL_KIND_MULTILINE_COMMENT, 0, 0, 4, 4));
    EXPECT(NEXT("/**/x/**/", 0) == 0 && answered(PUFFSATCHEL_KIND_MULTILINE_COMMENT, 0, 0, 4, 4));
    EXPECT(LIST("/**/x/**/", 64) == 0 && answered(0, 3, 0, 0, 0) && STORED(all));
    EXPECT(LIST("`\\/**/`x", 64) == 0 && answered(0, 2, 0, 0, 0) && STORED(template));
    EXPECT(FIND("/**/x/**/ // a*/ `\\/**/` b", 64) == 0 && answered(0, 0, 0, 0, 0) && stored(store, 0));
    EXPECT(OUTLINE("/**/x/**/", 64) == 0 && answered(0, 0, 0, 0, 0) && WROTE("/**/x/**/"));
    EXPECT(OUTLINE("/*a*/b", 64) == 0 && answered(0, 0, 0, 0, 0) && WROTE("/*x*/b"));
    EXPECT(OUTLINE("`\\/**/`x", 64) == 0 && answered(0, 0, 0, 0, 0) && WROTE("`xxxxx`x"));
}

static void unescapes(void) {
    EXPECT(UNESCAPE("a\\n", PUFFSATCHEL_FORM_TEXT, 2) == 0 && answered(0, 2, 0, 0, 0) && WROTE("a\n"));
    EXPECT(UNESCAPE("\\x7f", PUFFSATCHEL_FORM_TEXT, 64) == 0 && answered(0, 1, 0, 0, 0) && WROTE("\x7f"));
    EXPECT(UNESCAPE("\\x80", PUFFSATCHEL_FORM_TEXT, 64) == PUFFSATCHEL_BAD_HEX_ESCAPE_CHAR && answered(0, 0, 0, 4, 4) && WROTE(""));
    EXPECT(UNESCAPE("\\xff", PUFFSATCHEL_FORM_BYTE, 64) == 0 && answered(0, 1, 0, 0, 0) && WROTE("\xff"));
    EXPECT(UNESCAPE("\\xff", PUFFSATCHEL_FORM_BYTE_TEXT, 64) == 0 && answered(0, 1, 0, 0, 0) && WROTE("\xff"));
    EXPECT(UNESCAPE("\\u{100000041}", PUFFSATCHEL_FORM_CHAR, 64) == 0 && answered(0, 1, 0, 0, 0) && WROTE("A"));
    EXPECT(UNESCAPE("\\u{}", PUFFSATCHEL_FORM_TEXT, 64) == PUFFSATCHEL_BAD_UNICODE_ESCAPE && WROTE(""));
    EXPECT(UNESCAPE("\\u{d800}", PUFFSATCHEL_FORM_TEXT, 64) == PUFFSATCHEL_BAD_UNICODE_ESCAPE && WROTE(""));
    EXPECT(UNESCAPE("\\u{41}", PUFFSATCHEL_FORM_BYTE_TEXT, 64) == PUFFSATCHEL_BAD_UNICODE_ESCAPE_IN_BYTE_STRING && WROTE(""));
    EXPECT(UNESCAPE("\\$\\`", PUFFSATCHEL_FORM_TEMPLATE, 64) == 0 && answered(0, 2, 0, 0, 0) && WROTE("$`"));
    EXPECT(UNESCAPE("\\$", PUFFSATCHEL_FORM_TEXT, 64) == PUFFSATCHEL_BAD_ESCAPE_SEQUENCE && answered(0, 0, 0, 2, 2) && WROTE(""));
    EXPECT(UNESCAPE("a\\xg0", PUFFSATCHEL_FORM_TEXT, 64) == PUFFSATCHEL_BAD_BYTE_ESCAPE && answered(0, 0, 1, 4, 4) && WROTE(""));
    EXPECT(UNESCAPE("\\x4", PUFFSATCHEL_FORM_BYTE, 64) == PUFFSATCHEL_BAD_BYTE_ESCAPE && answered(0, 0, 0, 3, 3) && WROTE(""));
    EXPECT(UNESCAPE("\xc3\xa9", PUFFSATCHEL_FORM_BYTE_TEXT, 64) == PUFFSATCHEL_NOT_ASCII && answered(0, 0, 0, 2, 2) && WROTE(""));
    EXPECT(UNESCAPE("ab", PUFFSATCHEL_FORM_CHAR, 64) == PUFFSATCHEL_NOT_ONE_ITEM && answered(0, 0, 0, 2, 2) && WROTE(""));
    EXPECT(UNESCAPE("", PUFFSATCHEL_FORM_BYTE, 0) == PUFFSATCHEL_NOT_ONE_ITEM && answered(0, 0, 0, 0, 0) && WROTE(""));
    EXPECT(UNESCAPE("", PUFFSATCHEL_FORM_TEXT, 0) == 0 && answered(0, 0, 0, 0, 0) && WROTE(""));
    EXPECT(UNESCAPE("abc", PUFFSATCHEL_FORM_TEXT, 2) == PUFFSATCHEL_OUTPUT_SHORT && answered(0, 0, 0, 3, 3) && WROTE(""));
    EXPECT(UNESCAPE("a\xff", PUFFSATCHEL_FORM_TEXT, 64) == PUFFSATCHEL_ILL_FORMED && answered(0, 0, 1, 1, 1) && WROTE(""));
    EXPECT(UNESCAPE("a", 0, 64) == PUFFSATCHEL_NO_SUCH_FORM && answered(0, 0, 0, 0, 0) && WROTE(""));
    EXPECT(UNESCAPE("a", 6, 64) == PUFFSATCHEL_NO_SUCH_FORM && answered(0, 0, 0, 0, 0) && WROTE(""));
    EXPECT(UNESCAPE("\xff", UINT32_MAX, 0) == PUFFSATCHEL_NO_SUCH_FORM && answered(0, 0, 0, 0, 0) && WROTE(""));
}

static uint32_t keep_list(const uint32_t *words, size_t len, size_t room) {
    clear_out();
    return puffsatchel_store(words, len, out, room, &answer);
}

static uint32_t load_list(const char *records, size_t len, size_t room) {
    size_t i;
    for (i = 0; i < 64; i++) store[i] = MARK_WORD;
    forget();
    return puffsatchel_load(bytes(records, len), len, store, room, &answer);
}

#define A_RECORD "\x54\x4b\x06\x00\x00\x00\x00\x01\x00\x00\x00"
#define SEMI_RECORD "\x54\x4b\x1f\x01\x00\x00\x00\x02\x00\x00\x00"
#define LOAD(records, room) load_list(records, sizeof(records) - 1, room)

static void keeps(void) {
    static const uint32_t good[] = {6, 0, 1, 31, 1, 2};
    static const uint32_t late[] = {6, 1, 2};
    static const uint32_t gap[] = {6, 0, 1, 31, 2, 3};
    static const uint32_t flat[] = {6, 0, 0};
    static const uint32_t none[] = {0, 0, 1};
    static const uint32_t end[] = {6, 0, 1, 67, 1, 2};
    EXPECT(keep_list(good, 3, 11) == 0 && answered(0, 11, 0, 0, 0) && WROTE(A_RECORD));
    EXPECT(keep_list(good, 6, 64) == 0 && answered(0, 22, 0, 0, 0) && WROTE(A_RECORD SEMI_RECORD));
    EXPECT(keep_list(good, 0, 0) == 0 && answered(0, 0, 0, 0, 0) && WROTE(""));
    EXPECT(keep_list(good, 4, 64) == PUFFSATCHEL_BAD_LENGTH && answered(0, 0, 0, 0, 0) && WROTE(""));
    EXPECT(keep_list(none, 3, 64) == PUFFSATCHEL_BAD_KIND && answered(0, 0, 0, 0, 0) && WROTE(""));
    EXPECT(keep_list(end, 6, 64) == PUFFSATCHEL_BAD_KIND && answered(0, 0, 1, 1, 1) && WROTE(""));
    EXPECT(keep_list(late, 3, 64) == PUFFSATCHEL_GAP && answered(0, 0, 0, 0, 0) && WROTE(""));
    EXPECT(keep_list(gap, 6, 64) == PUFFSATCHEL_GAP && answered(0, 0, 1, 1, 1) && WROTE(""));
    EXPECT(keep_list(flat, 3, 64) == PUFFSATCHEL_GAP && answered(0, 0, 0, 0, 0) && WROTE(""));
    EXPECT(keep_list(good, 6, 21) == PUFFSATCHEL_NO_ROOM && answered(0, 0, 0, 0, 0) && WROTE(""));
}

static void loads(void) {
    static const uint32_t words_one[] = {6, 0, 1};
    static const uint32_t words_two[] = {6, 0, 1, 31, 1, 2};
    EXPECT(LOAD(A_RECORD, 3) == 0 && answered(0, 3, 0, 0, 0) && STORED(one));
    EXPECT(LOAD(A_RECORD SEMI_RECORD, 64) == 0 && answered(0, 6, 0, 0, 0) && STORED(two));
    EXPECT(LOAD("", 0) == 0 && answered(0, 0, 0, 0, 0) && stored(store, 0));
    EXPECT(LOAD(A_RECORD "\x54", 64) == PUFFSATCHEL_BAD_LENGTH && answered(0, 0, 0, 0, 0) && stored(store, 0));
    EXPECT(LOAD(A_RECORD "\x54\x4c\x1f\x01\x00\x00\x00\x02\x00\x00\x00", 64) == PUFFSATCHEL_BAD_MARK && answered(0, 0, 1, 1, 1) && stored(store, 0));
    EXPECT(LOAD("\x54\x4b\x43\x00\x00\x00\x00\x01\x00\x00\x00", 64) == PUFFSATCHEL_BAD_KIND && answered(0, 0, 0, 0, 0) && stored(store, 0));
    EXPECT(LOAD(SEMI_RECORD, 64) == PUFFSATCHEL_GAP && answered(0, 0, 0, 0, 0) && stored(store, 0));
    EXPECT(LOAD(A_RECORD A_RECORD, 64) == PUFFSATCHEL_GAP && answered(0, 0, 1, 1, 1) && stored(store, 0));
    EXPECT(LOAD(A_RECORD SEMI_RECORD, 5) == PUFFSATCHEL_NO_ROOM && answered(0, 0, 0, 0, 0) && stored(store, 0));
}

/* The largest source, and one byte more. */
static void largest(void) {
    const size_t most = PUFFSATCHEL_LARGEST_SOURCE;
    char *text = (char *)edge(most + 1);
    uint32_t *words = (uint32_t *)(void *)edge(PUFFSATCHEL_LARGEST_LIST * sizeof(uint32_t));
    uint8_t *records = edge(PUFFSATCHEL_LARGEST_STORED);
    size_t i;
    int right = 1;
    memset(text, ';', most + 1);
    EXPECT(test(text, most) == 0);
    EXPECT(test(text, most + 1) == PUFFSATCHEL_TOO_LONG && answered(0, 0, 0, 0, 0));
    EXPECT(read_at(text, most, most) == 0 && answered(PUFFSATCHEL_KIND_EOF, 0, most, most, most));
    EXPECT(read_at(text, most + 1, 0) == PUFFSATCHEL_TOO_LONG && answered(0, 0, 0, 0, 0));
    EXPECT(list(text, most + 1, 64) == PUFFSATCHEL_TOO_LONG && answered(0, 0, 0, 0, 0) && stored(store, 0));
    EXPECT(found(text, most, 0) == 0 && answered(0, 0, 0, 0, 0) && stored(store, 0));
    EXPECT(found(text, most + 1, 64) == PUFFSATCHEL_TOO_LONG && answered(0, 0, 0, 0, 0) && stored(store, 0));
    EXPECT(outline(text, most + 1, 64) == PUFFSATCHEL_TOO_LONG && answered(0, 0, 0, 0, 0) && WROTE(""));
    EXPECT(outline(text, most, 64) == PUFFSATCHEL_NO_ROOM && answered(0, 0, 0, 0, 0) && WROTE(""));
    EXPECT(unescape(text, most + 1, PUFFSATCHEL_FORM_TEXT, 64) == PUFFSATCHEL_TOO_LONG && answered(0, 0, 0, 0, 0) && WROTE(""));
    forget();
    EXPECT(puffsatchel_list(bytes(text, most), most, reading, words, PUFFSATCHEL_LARGEST_LIST, &answer) == 0 && answered(0, most, 0, 0, 0));
    for (i = 0; i < most; i++) right = right && words[3 * i] == 31 && words[3 * i + 1] == i && words[3 * i + 2] == i + 1;
    EXPECT(right);
    forget();
    EXPECT(puffsatchel_store(words, PUFFSATCHEL_LARGEST_LIST, records, PUFFSATCHEL_LARGEST_STORED, &answer) == 0 && answered(0, PUFFSATCHEL_LARGEST_STORED, 0, 0, 0));
    memset(words, (int)MARK, PUFFSATCHEL_LARGEST_LIST * sizeof(uint32_t));
    forget();
    EXPECT(puffsatchel_load(records, PUFFSATCHEL_LARGEST_STORED, words, PUFFSATCHEL_LARGEST_LIST, &answer) == 0 && answered(0, PUFFSATCHEL_LARGEST_LIST, 0, 0, 0));
    for (i = 0; i < most; i++) right = right && words[3 * i] == 31 && words[3 * i + 1] == i && words[3 * i + 2] == i + 1;
    EXPECT(right);
}

/* A template in a template 64 deep is read, a 65th refused. */
static void deepest(void) {
    char text[2 * PUFFSATCHEL_DEEPEST_TEMPLATE + 1];
    const size_t most = 2 * PUFFSATCHEL_DEEPEST_TEMPLATE - 1;
    size_t i;
    for (i = 0; i < sizeof text; i++) text[i] = i % 2 ? '\\' : '`';
    EXPECT(read_at(text, most, 0) == 0 && answered(PUFFSATCHEL_KIND_TEMPLATE, 0, 0, most, most));
    EXPECT(read_at(text, most + 2, 0) == PUFFSATCHEL_TOO_DEEP && answered(0, 0, 0, most + 2, most + 2));
}

/* A comment that runs on into the line after it, and then as many tokens as there is room for that seem to be in a comment. */
static void most_findings(void) {
    static char text[PUFFSATCHEL_LARGEST_SOURCE];
    const size_t most = sizeof text, opened = sizeof "/**/ // a*/" - 1;
    uint32_t *words = (uint32_t *)(void *)edge(PUFFSATCHEL_LARGEST_FINDINGS * sizeof(uint32_t));
    size_t at;
    int right = 1;
    memset(text, ';', most);
    memcpy(text, "/**/ // a*/", opened);
    forget();
    EXPECT(puffsatchel_findings(bytes(text, most), most, PUFFSATCHEL_COMMENTS_CRATE, words, PUFFSATCHEL_LARGEST_FINDINGS, &answer) == 0);
    EXPECT(answered(0, 1 + most - opened, 0, 0, 0) && words[0] == PUFFSATCHEL_RUNS_ON_BLANK && words[2] == opened);
    for (at = opened; at < most; at++) {
        const uint32_t *record = words + 5 * (1 + at - opened);
        right = right && record[0] == PUFFSATCHEL_READ_AS_CODE && record[1] == at && record[2] == at + 1 && record[3] == 5 && record[4] == most;
    }
    EXPECT(right);
}

static int no_reading(uint32_t result) {
    return result == PUFFSATCHEL_NO_SUCH_READING && answered(0, 0, 0, 0, 0);
}

/* Before every other refusal: for a source that is ill-formed or too long, for a place past the end, for memory that is too short. */
static void refuses_a_reading(void) {
    static const uint32_t numbers[] = {0, 3, 4, 5, 16, 17, 18, 0x80000001u, UINT32_MAX};
    static char text[PUFFSATCHEL_LARGEST_SOURCE + 1];
    size_t i;
    memset(text, ';', sizeof text);
    for (i = 0; i < sizeof numbers / sizeof numbers[0]; i++) {
        reading = numbers[i];
        EXPECT(no_reading(READ("a;", 0)));
        EXPECT(no_reading(READ("a;", 3)));
        EXPECT(no_reading(READ("\xff", 0)));
        EXPECT(no_reading(read_at(text, sizeof text, 0)));
        EXPECT(no_reading(NEXT("a;", 1)));
        EXPECT(no_reading(NEXT("''", 0)));
        EXPECT(no_reading(NEXT("", 0)));
        EXPECT(no_reading(LIST("a;", 64)) && stored(store, 0));
        EXPECT(no_reading(LIST("a;", 0)) && stored(store, 0));
        EXPECT(no_reading(LIST("a;\xff", 64)) && stored(store, 0));
        EXPECT(no_reading(list(text, sizeof text, 64)) && stored(store, 0));
        EXPECT(no_reading(FIND("/*", 64)) && stored(store, 0));
        EXPECT(no_reading(FIND("/*", 0)) && stored(store, 0));
        EXPECT(no_reading(FIND("/*\xff", 64)) && stored(store, 0));
        EXPECT(no_reading(found(text, sizeof text, 64)) && stored(store, 0));
        EXPECT(no_reading(OUTLINE("\"a\"", 64)) && WROTE(""));
        EXPECT(no_reading(OUTLINE("\"a\"", 2)) && WROTE(""));
        EXPECT(no_reading(OUTLINE("\"a\"\xff", 64)) && WROTE(""));
        EXPECT(no_reading(outline(text, sizeof text, 64)) && WROTE(""));
    }
}

static int same(const char *text, const char *wanted) {
    return strcmp(text, wanted) == 0;
}

static void says_in_words(void) {
    const char *none = puffsatchel_kind_text(0);
    uint32_t number;
    for (number = 0; number <= 100; number++) {
        EXPECT(same(puffsatchel_kind_text(number), none) == (number < 1 || number > 67));
        EXPECT(same(puffsatchel_finding_text(number, '/'), none) == (number < 60 || number > 65));
    }
    EXPECT(same(puffsatchel_kind_text(PUFFSATCHEL_KIND_MULTILINE_COMMENT), "a closed comment"));
    EXPECT(same(puffsatchel_kind_text(PUFFSATCHEL_KIND_EQ_EQ), "`==`"));
    EXPECT(same(puffsatchel_refusal_text(PUFFSATCHEL_ACCEPTED), "nothing was refused"));
    EXPECT(same(puffsatchel_refusal_text(PUFFSATCHEL_UNTERMINATED_STR_LIT), "the source ends in a string; close it with a quote"));
    EXPECT(same(puffsatchel_refusal_text(PUFFSATCHEL_BAD_HEX_ESCAPE_CHAR), "`\\x` is above 7f in text; write `\\u{..}`"));
    EXPECT(same(puffsatchel_refusal_text(7), none) && same(puffsatchel_refusal_text(44), none));
    EXPECT(strncmp(puffsatchel_finding_text(PUFFSATCHEL_RUNS_ON, '/'), "this comment ", 13) == 0);
    EXPECT(strncmp(puffsatchel_finding_text(PUFFSATCHEL_RUNS_ON_BLANK, '`'), "this template ", 14) == 0);
}

static void reads_by(uint32_t number) {
    reading = number;
    reads_a_token();
    refuses_a_token();
    refuses_a_place();
    reads_on();
    lists();
    finds();
    finds_in_any_bytes();
    outlines();
    largest();
    deepest();
}

int main(void) {
    last = edge(PUFFSATCHEL_LARGEST_SOURCE + 1) + PUFFSATCHEL_LARGEST_SOURCE + 1;
    EXPECT(puffsatchel_version() == PUFFSATCHEL_VERSION);
    tests_a_source();
    reads_by(PUFFSATCHEL_COMMENTS_CRATE);
    comments_of_the_crate();
    most_findings();
    reads_by(PUFFSATCHEL_COMMENTS_FIRST);
    comments_to_the_first_close();
    refuses_a_reading();
    unescapes();
    keeps();
    loads();
    says_in_words();
    printf("%d passed, %d failed\n", passed, failed);
    return failed != 0;
}
