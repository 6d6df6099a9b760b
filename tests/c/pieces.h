/* What random sources are made of. */
#include "chance.h"

/* The marks of comments and templates come often, and what ends the reading of a source seldom. */
static const char *piece(void) {
    static const char *const pieces[] = {
        "/**/", "/**/", "/**/", "/* */", "/*a*/", "/***/", "/**/a", "/*ab", "/*", "/*", "*/", "*/", "*/", "*/", "*/a", "//", "//", "/", "*",
        "`", "`", "`", "`\\`", "`\\/**/", "`\\/*", "\\/**/`", "\\", "{", "}", "${", "\"", "b\"", "\\\"", "'", "b'", "''", "'a'",
        "a", "a", "b", "_", "1", ";", "#!", " ", " ", "\t", "\n", "\n", "\n", "a\n", "\r\n", "\xc2\xa0", "\xc3\xa9", "\xe6\xbc\xa2", "\xf0\x9f\x8c\x8a"};
    return pieces[chance() % (sizeof pieces / sizeof pieces[0])];
}
