/* What is found against what the two listings of a source say. From the tokens by each reading, and from what ends each list, this computes by code
 * of its own what has to be found, and compares every lent word and the answer, with room for all and with less, of 300,000 random and damaged
 * sources in both readings.
 *
 * usage: findings FILE..        rule files, of which damaged copies are made */
#include "lent.h"
#include "pieces.h"

enum { RANDOM = 200000, DAMAGED = 100000, PIECES = 24, WINDOW = 500, MOST = 640, FILES = 8, GUARD = 8, CODES = 6 };

static uint8_t *text_end;
static const uint8_t *source;
static size_t len;

/* A token, or what is refused at the end of a list. */
struct item {
    uint32_t refused;
    uint32_t kind;
    size_t at;
    size_t start;
    size_t end;
    size_t reached;
};

struct list {
    struct item items[MOST + 1];
    size_t count;
};

static struct list in_force, first;

static void list_source(uint32_t reading, struct list *list) {
    static uint32_t words[3 * MOST];
    const uint32_t refused = puffsatchel_list(source, len, reading, words, 3 * len, &answer);
    size_t at = 0;
    for (list->count = 0; list->count < answer.count; list->count++) {
        const uint32_t *token = words + 3 * list->count;
        const struct item item = {0, token[0], at, token[1], token[2], token[2]};
        list->items[list->count] = item;
        at = token[2];
    }
    if (refused != 0) {
        const struct item item = {refused, 0, at, answer.start, answer.end, answer.reached};
        list->items[list->count++] = item;
    }
}

/* What has to be found. A token gives two findings at most. */
static uint32_t wanted[5 * (2 * MOST + 1)];
static size_t count;

static void want(uint32_t code, size_t start, size_t end, size_t from, size_t to) {
    uint32_t *words = wanted + 5 * count++;
    words[0] = code;
    words[1] = (uint32_t)start;
    words[2] = (uint32_t)end;
    words[3] = (uint32_t)from;
    words[4] = (uint32_t)to;
}

static int is_blank(uint32_t kind) {
    return 1 <= kind && kind <= 4;
}

static int is_comment(const struct item *item) {
    return item->refused == 0 && 2 <= item->kind && item->kind <= 4;
}

static int alike(const struct item *a, const struct item *b) {
    return a->refused == b->refused && a->kind == b->kind && a->start == b->start && a->end == b->end && a->reached == b->reached;
}

/* Whether anything but white space and comments begins in a stretch, or something there is refused. */
static int holds(uint32_t reading, size_t from, size_t to) {
    while (from < to) {
        if (puffsatchel_next(source, len, reading, from, &answer) != 0) return 1;
        if (!is_blank((uint32_t)answer.value)) return 1;
        from = answer.end;
    }
    return 0;
}

static void want_runs_on(uint32_t reading, size_t at, size_t here, size_t there) {
    if (there <= here)
        want(holds(PUFFSATCHEL_COMMENTS_FIRST, there, here) ? 60 : 61, at, here, there, here);
    else
        want(holds(reading, here, there) ? 60 : 61, at, here, here, there);
}

/* What a backtick has closed stays as it is when the source goes on. */
static int stays_open(uint32_t reading, const struct item *item) {
    static uint8_t longer[MOST + 1];
    if (item->end != len) return 0;
    memcpy(longer, source, len);
    longer[len] = ' ';
    puffsatchel_next(longer, len + 1, reading, item->at, &answer);
    return answer.end != item->end;
}

static void want_of(uint32_t reading, const struct item *here, const struct item *there) {
    if (there->at == here->at) {
        if (!alike(here, there)) want_runs_on(reading, here->at, here->reached, there->reached);
    } else if (is_comment(there) && here->refused == 0 && !is_blank(here->kind)) {
        want(62, here->at, here->end, there->at, there->end);
    }
    if (here->kind == 4) want(63, here->at, here->end, here->end, here->end);
    if (here->kind == 16 && stays_open(reading, here)) want(64, here->at, here->end, here->end, here->end);
}

static void want_all(uint32_t reading) {
    size_t i, beside = 0;
    list_source(reading, &in_force);
    list_source(PUFFSATCHEL_COMMENTS_FIRST, &first);
    if (len >= 3 && memcmp(source, "\xef\xbb\xbf", 3) == 0) want(65, 0, 3, 3, 3);
    for (i = 0; i < in_force.count; i++) {
        while (first.items[beside].refused == 0 && first.items[beside].end <= in_force.items[i].at) beside++;
        want_of(reading, &in_force.items[i], &first.items[beside]);
    }
}

/* The refusal that ends the findings where they all have room. */
static struct item last;

static void state_wanted(uint32_t reading) {
    const struct item none = {0, 0, 0, 0, 0, 0};
    count = 0;
    last = none;
    last.refused = puffsatchel_test(source, len, &answer);
    if (last.refused != 0) {
        last.start = last.end = last.reached = answer.start;
        return;
    }
    want_all(reading);
    if (in_force.count != 0 && in_force.items[in_force.count - 1].refused != 0) last = in_force.items[in_force.count - 1];
}

static uint32_t store[5 * (2 * MOST + 1) + GUARD];

static int finds(uint32_t reading, size_t room) {
    const size_t fits = room / 5 < count ? room / 5 : count;
    const uint32_t *refused = wanted + 5 * fits;
    uint32_t result;
    size_t i;
    for (i = 0; i < room + GUARD; i++) store[i] = MARK_WORD;
    forget();
    result = puffsatchel_findings(source, len, reading, store, room, &answer);
    for (i = 0; i < room + GUARD; i++)
        if (store[i] != (i < 5 * fits ? wanted[i] : MARK_WORD)) return 0;
    if (fits < count) return result == PUFFSATCHEL_NO_ROOM && answered(0, fits, refused[1], refused[2], refused[2]);
    return result == last.refused && answered(0, count, last.start, last.end, last.reached);
}

static void print_source(void) {
    size_t i;
    printf("  source: ");
    for (i = 0; i < len; i++) {
        if (source[i] < ' ' || source[i] >= 0x7f)
            printf("<%02x>", source[i]);
        else
            putchar(source[i]);
    }
    putchar('\n');
}

static void print_findings(const char *name, const uint32_t *words, size_t found, uint32_t refused, size_t start, size_t end, size_t reached) {
    size_t i;
    printf("  %s:", name);
    for (i = 0; i < found; i++, words += 5) printf(" %u %u..%u (%u..%u),", words[0], words[1], words[2], words[3], words[4]);
    printf(" refused %u %lu..%lu, reached %lu\n", refused, (unsigned long)start, (unsigned long)end, (unsigned long)reached);
}

static void print_difference(uint32_t reading, size_t room) {
    uint32_t result;
    printf("tests/c/findings.c: the first difference, in the reading %u with room for %lu words:\n", reading, (unsigned long)room);
    print_source();
    print_findings("wanted", wanted, count, last.refused, last.start, last.end, last.reached);
    result = puffsatchel_findings(source, len, reading, store, room, &answer);
    print_findings("found", store, answer.count, result, answer.start, answer.end, answer.reached);
}

static unsigned long sources, differences, seen[CODES], refusals;

static void compare_by(uint32_t reading) {
    size_t rooms[3], i;
    state_wanted(reading);
    rooms[0] = 5 * count;
    rooms[1] = 5 * count + 4;
    rooms[2] = count == 0 ? 0 : chance() % (5 * count);
    for (i = 0; i < 3; i++) {
        if (finds(reading, rooms[i])) continue;
        if (differences++ == 0) print_difference(reading, rooms[i]);
        return;
    }
    for (i = 0; i < count; i++) seen[wanted[5 * i] - 60]++;
    refusals += last.refused != 0;
    if (count > len && differences++ == 0) printf("tests/c/findings.c: more findings than bytes\n"), print_source();
}

static void compare(const uint8_t *text, size_t text_len) {
    len = text_len;
    source = (const uint8_t *)memcpy(text_end - len, text, len);
    sources++;
    compare_by(PUFFSATCHEL_COMMENTS_CRATE);
    compare_by(PUFFSATCHEL_COMMENTS_FIRST);
}

static uint8_t text[MOST];

static size_t put(size_t place, const char *letters) {
    const size_t letters_len = strlen(letters);
    if (place + letters_len > MOST) return place;
    memcpy(text + place, letters, letters_len);
    return place + letters_len;
}

static void random_sources(void) {
    size_t turn, i;
    for (turn = 0; turn < RANDOM; turn++) {
        const size_t pieces = chance() % (PIECES + 1);
        size_t end = chance() % 64 == 0 ? put(0, "\xef\xbb\xbf") : 0;
        for (i = 0; i < pieces; i++) end = put(end, piece());
        if (end != 0 && chance() % 32 == 0) text[chance() % end] = (uint8_t)chance();
        compare(text, end);
    }
}

/* Takes some bytes out, or puts a piece over or between them. */
static size_t damage(size_t end) {
    const char *letters = piece();
    const size_t place = chance() % (end + 1);
    const size_t letters_len = strlen(letters);
    const size_t gone = chance() % 8;
    switch (chance() % 4) {
    case 0:
        if (place + gone > end) return end;
        memmove(text + place, text + place + gone, end - place - gone);
        return end - gone;
    case 1:
        if (place < end && chance() % 16 == 0) text[place] = (uint8_t)chance();
        return end;
    case 2:
        if (place + letters_len <= end) put(place, letters);
        return end;
    default:
        if (end + letters_len > MOST) return end;
        memmove(text + place + letters_len, text + place, end - place);
        put(place, letters);
        return end + letters_len;
    }
}

static struct {
    uint8_t bytes[4096];
    size_t len;
} files[FILES];

static void damaged_sources(size_t of) {
    size_t turn, times;
    for (turn = 0; turn < DAMAGED; turn++) {
        const size_t file = chance() % of;
        const size_t from = chance() % 4 == 0 ? 0 : chance() % files[file].len;
        const size_t left = files[file].len - from;
        size_t end = left < WINDOW ? left : WINDOW;
        memcpy(text, files[file].bytes + from, end);
        for (times = 1 + chance() % 6; times > 0; times--) end = damage(end);
        compare(text, end);
    }
}

static int read_file(const char *name, size_t number) {
    FILE *file = fopen(name, "rb");
    if (file == NULL) {
        perror(name);
        return 0;
    }
    files[number].len = fread(files[number].bytes, 1, sizeof files[number].bytes, file);
    fclose(file);
    return files[number].len != 0;
}

int main(int argc, char **argv) {
    size_t i;
    if (argc < 2 || argc > FILES + 1) {
        fprintf(stderr, "usage: findings FILE..        at most %d rule files\n", (int)FILES);
        return 2;
    }
    for (i = 1; i < (size_t)argc; i++)
        if (!read_file(argv[i], i - 1)) return 2;
    text_end = edge(MOST) + MOST;
    random_sources();
    damaged_sources((size_t)argc - 1);
    printf("findings: %lu sources in both readings, %lu readings refused;", sources, refusals);
    for (i = 0; i < CODES; i++) printf(" %lu of %lu,", seen[i], (unsigned long)i + 60);
    printf(" %lu differ\n", differences);
    for (i = 0; i < CODES; i++)
        if (seen[i] == 0) return 1;
    return differences != 0;
}
