/* What the tests of single calls share: a count of what holds. */
#include "lent.h"

static int failed = 0;
static int passed = 0;

static void expect(int holds, const char *what, const char *file, int line) {
    if (holds) {
        passed++;
    } else {
        failed++;
        printf("tests/c/%s:%d: %s\n", file, line, what);
    }
}

#define EXPECT(holds) expect((holds), #holds, __FILE__, __LINE__)
