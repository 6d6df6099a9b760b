/* What the programs here lend: the record of an answer, and memory that ends where a page begins that cannot be touched. */
#ifndef _DEFAULT_SOURCE
#define _DEFAULT_SOURCE
#endif

#include "puffsatchel.h"

#include <stdio.h>
#include <string.h>
#include <sys/mman.h>
#include <unistd.h>

#define MARK 0xa5u
#define MARK_WORD 0xa5a5a5a5u

static puffsatchel_answer answer;

static void forget(void) {
    memset(&answer, (int)MARK, sizeof answer);
}

static int answered(size_t value, size_t count, size_t start, size_t end, size_t reached) {
    return answer.value == value && answer.count == count && answer.start == start && answer.end == end && answer.reached == reached;
}

/* Memory of so many bytes that ends where a page begins that cannot be touched. */
static uint8_t *edge(size_t len) {
    const size_t page = 4096;
    const size_t room = (len + page - 1) / page * page;
    uint8_t *start = (uint8_t *)mmap(NULL, room + page, PROT_READ | PROT_WRITE, MAP_PRIVATE | MAP_ANONYMOUS, -1, 0);
    if (start == (uint8_t *)MAP_FAILED || mprotect(start + room, page, PROT_NONE) != 0) {
        printf("tests/c: no memory for %lu bytes\n", (unsigned long)len);
        _exit(2);
    }
    return start + room - len;
}
