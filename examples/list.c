/* Lists the tokens of a rule file, each with its line, its kind and its text, or says what cannot be read there and what to do about it.
 *
 *     bin/build-library DIR
 *     cc -IDIR examples/list.c DIR/libpuffsatchel.a -o list
 *     ./list examples/winter.rn
 */
#include "puffsatchel.h"

#include <stdio.h>

/* One byte more than a source may have, so that a longer file is refused and not cut. */
static uint8_t source[PUFFSATCHEL_LARGEST_SOURCE + 1];
static uint32_t tokens[PUFFSATCHEL_LARGEST_LIST];

static int read_file(const char *name, size_t *len) {
    FILE *file = fopen(name, "rb");
    int failed;
    if (file == NULL) return 0;
    *len = fread(source, 1, sizeof source, file);
    failed = ferror(file);
    fclose(file);
    return !failed;
}

static size_t line_ends(size_t from, size_t to) {
    size_t count = 0;
    for (; from < to; from++) count += source[from] == '\n';
    return count;
}

static void print_token(size_t line, const uint32_t *token) {
    uint32_t place;
    printf("%4lu  %-36s  ", (unsigned long)line, puffsatchel_kind_text(token[0]));
    for (place = token[1]; place < token[2]; place++) {
        if (source[place] == '\n')
            printf("\\n");
        else
            putchar(source[place]);
    }
    putchar('\n');
}

static void walk(size_t count) {
    const uint32_t *token = tokens;
    size_t line = 1;
    for (; count > 0; count--, token += PUFFSATCHEL_WORDS_PER_TOKEN) {
        if (token[0] != PUFFSATCHEL_KIND_WHITESPACE) print_token(line, token);
        line += line_ends(token[1], token[2]);
    }
}

int main(int argc, char **argv) {
    puffsatchel_answer answer;
    uint32_t refused;
    size_t len;
    if (argc != 2) {
        fprintf(stderr, "usage: list FILE\n");
        return 2;
    }
    if (!read_file(argv[1], &len)) {
        perror(argv[1]);
        return 2;
    }
    refused = puffsatchel_list(source, len, PUFFSATCHEL_COMMENTS_CRATE, tokens, PUFFSATCHEL_LARGEST_LIST, &answer);
    walk(answer.count);
    if (fflush(stdout) != 0) {
        perror("standard output");
        return 2;
    }
    if (refused == PUFFSATCHEL_ACCEPTED) return 0;
    fprintf(stderr, "%s:%lu: refused %u: %s\n", argv[1], (unsigned long)line_ends(0, answer.start) + 1, (unsigned)refused, puffsatchel_refusal_text(refused));
    return 1;
}
