/* Holds the plain resume to the plain run, and what it takes for an image to the plain listing.
     slices CASES SEED
   over a few strips and CASES made by chance, half of them with blocks: every budget up to the end, or of a long run every one in a part
   of it, every pair of budgets and some triples leave what one run leaves; at each place every depth, of a deep stack some; images
   damaged by chance. */
#include <stdio.h>
#include <stdlib.h>
#include <string.h>

#include "lent.h"

/* A large memory is copied at every cut, so there are fewer of them; of deep stacks not every depth is asked about. */
enum { CUT_MOST = 160, LARGE = 1000, CUT_LARGE = 24, DEEP_STACK = 32, PARTS = 4, LINES = STRIP_MOST, DAMAGES = 40 };

static const struct doors plain = { plain_run, plain_start, plain_resume };
static unsigned long strips, cuts, images, taken, differing;

static void differs(const char *what, const struct strip *s, unsigned a, unsigned b)
{
    differing++;
    printf("%s differs, %u %u:", what, a, b);
    for (size_t i = 0; i < s->len; i++)
        printf(" %02X", s->bytes[i]);
    printf("\n");
}

static uint64_t run_once(const struct doors *d, const struct strip *s, struct lent *x, uint32_t budget)
{
    return d->run(s->bytes, s->len, x->args, x->args_len, x->memory, x->memory_len, x->results, x->results_len, budget);
}

/* One slice more, if the budget ended the last: code and place are the last slice's, steps those of all. */
static uint64_t resume_after(uint64_t sum, const struct doors *d, const struct strip *s, struct lent *x, uint32_t budget)
{
    return code_of(sum) != BUDGET ? sum : resume(d, s, x, budget) + ((uint64_t)steps_of(sum) << 32);
}

/* --- slices ------------------------------------------------------------------------------------------------------- */

/* After every budget from the first on: what one run answers and leaves, and the image of one slice. */
static struct lent after[CUT_MOST + 1];
static uint64_t answers[CUT_MOST + 1];

static void whole_runs(const struct strip *s, const struct lent *x, unsigned first, unsigned most)
{
    static struct lent y;
    for (unsigned k = 0; k <= most; k++) {
        copy(&after[k], x);
        copy(&y, x);
        answers[k] = start(&plain, s, &after[k], first + k);
        if (run_once(&plain, s, &y, first + k) != answers[k] || memcmp(y.memory, after[k].memory, y.memory_len)
            || memcmp(y.results, after[k].results, sizeof y.results)
            || memcmp(after[k].image + IMAGE_BYTES, y.image + IMAGE_BYTES, IMAGE_ROOM - IMAGE_BYTES))
            differs("start", s, first + k, 0);
        if (code_of(answers[k]) != BUDGET && memcmp(after[k].image, y.image, sizeof y.image))
            differs("image of a start that is not out of budget", s, first + k, 0);
    }
}

/* A slice of b steps after one of a more than the first budget, and a third by chance. An image that is left over from the slice before
   says nothing of the last. */
static void cut(const struct strip *s, unsigned a, unsigned b, unsigned most)
{
    static struct lent y;
    copy(&y, &after[a]);
    uint64_t sum = resume_after(answers[a], &plain, s, &y, b);
    unsigned total = a + b;
    for (int last = 0;; last = 1) {
        if (code_of(sum) != BUDGET)
            memcpy(y.image, after[total].image, sizeof y.image);
        cuts++;
        if (sum != answers[total] || !same_left(&y, &after[total]))
            differs("slice", s, a, b);
        if (last || below(4))
            return;
        const unsigned c = below(most - total + 1);
        sum = resume_after(sum, &plain, s, &y, c);
        total += c;
    }
}

static void every_cut(const struct strip *s, const struct lent *x, unsigned first, unsigned most)
{
    whole_runs(s, x, first, most);
    for (unsigned a = 0; a <= most; a++)
        for (unsigned b = 0; a + b <= most; b++)
            cut(s, a, b, most);
}

/* --- images ------------------------------------------------------------------------------------------------------- */

/* The listing's lines. */
static struct {
    size_t place, depth;
    uint8_t kinds[STACK_MOST];
    int opens, ends, leaves; /* block and loop; end; br */
    int dead;
} lines[LINES];
static size_t line_count;

static const char *read_kinds(const char *c, size_t line)
{
    size_t n = 0;
    for (c++; *c != ']'; c++)
        if (*c == 'i' || *c == 'v')
            lines[line].kinds[n++] = *c == 'v' ? V128 : c[1] == '3' ? I32 : I64;
    lines[line].depth = n;
    return c + 2;
}

/* After a br, up to and with the `end` around it. */
static void mark_dead(size_t br)
{
    int inside = 0;
    for (size_t i = br + 1; i < line_count; i++) {
        lines[i].dead = 1;
        inside += lines[i].opens;
        if (lines[i].ends && inside-- == 0)
            return;
    }
}

static void read_listing(const struct strip *s)
{
    static uint8_t text[LISTING_MOST + 1];
    text[plain_listing(s->bytes, s->len, text)] = 0;
    line_count = 0;
    for (const char *c = (const char *)text; *c; c = strchr(c, '\n') + 1) {
        char *next;
        memset(&lines[line_count], 0, sizeof *lines);
        lines[line_count].place = strtoul(c, &next, 10);
        c = read_kinds(next + 1, line_count);
        lines[line_count].opens = !strncmp(c, "block ", 6) || !strncmp(c, "loop ", 5);
        lines[line_count].ends = !strncmp(c, "end", 3);
        lines[line_count].leaves = !strncmp(c, "br ", 3);
        line_count++;
    }
    for (size_t i = 0; i < line_count; i++)
        if (lines[i].leaves)
            mark_dead(i);
}

static int unused_zero(const uint8_t *slots, const uint8_t *kinds, size_t count, size_t most)
{
    for (size_t i = 0; i < SLOT * most; i++) {
        const uint8_t kind = i / SLOT < count ? kinds[i / SLOT] : 0;
        if (slots[i] && (kind == 0 || (kind == I32 && 4 <= i % SLOT) || (kind == I64 && 8 <= i % SLOT)))
            return 0;
    }
    return 1;
}

/* Mark and version. */
static const uint8_t front[] = { 0x57, 0x47, 0x53, IMAGE_VERSION % 256, IMAGE_VERSION / 256 };

/* As requests C-14 and C-15 say it of the listing. */
static int is_image(const struct strip *s, const uint8_t *image)
{
    const size_t place = image[5] | image[6] << 8 | image[7] << 16 | (size_t)image[8] << 24, depth = image[9] | image[10] << 8;
    for (size_t i = 0; i < line_count; i++)
        if (lines[i].place == place)
            return !lines[i].dead && lines[i].depth == depth && !memcmp(image, front, sizeof front)
                && unused_zero(image + LOCALS_AT, s->bytes + 8, s->bytes[5] + s->bytes[6], PARAMETERS_MOST + LOCALS_MOST)
                && unused_zero(image + STACK_AT, lines[i].kinds, depth, STACK_MOST);
    return 0;
}

/* No step: a good image is left as it is, and a bad one too. */
static void judged(const struct strip *s, const struct lent *x)
{
    static struct lent y;
    copy(&y, x);
    const unsigned place = x->image[5] | x->image[6] << 8, good = is_image(s, x->image);
    images++;
    taken += good;
    if (resume(&plain, s, &y, 0) != (good ? answer(BUDGET, place, 0) : answer(IMAGE, 0, 0)) || !same_left(&y, x))
        differs("image", s, place, depth_in(x->image));
}

/* Whether an image of this depth is to be judged at a place: the depths that the last line up to there has, one more and one less, or in
   the other byte; the least; and some by chance. */
static int asked(size_t depth, size_t there, size_t deepest)
{
    return deepest <= DEEP_STACK || depth % 256 == there % 256 || depth + 1 == there || depth == there + 1 || depth < 2 || !below(100);
}

/* Each depth up to one more than there is anywhere. The memory has no say in it: little is lent. */
static void every_place(const struct strip *s, const struct lent *x)
{
    static struct lent y;
    size_t deepest = 0, line = 0;
    for (size_t i = 0; i < line_count; i++)
        deepest = deepest < lines[i].depth ? lines[i].depth : deepest;
    copy(&y, x);
    y.memory_len = y.memory_len < LARGE ? y.memory_len : LARGE;
    memset(y.image, 0, IMAGE_BYTES);
    memcpy(y.image, front, sizeof front);
    for (size_t place = 0; place < s->len + 2; place++) {
        while (line + 1 < line_count && lines[line + 1].place <= place)
            line++;
        for (size_t depth = 0; depth <= deepest + 1; depth++) {
            if (!asked(depth, lines[line].depth, deepest))
                continue;
            y.image[PLACE_AT] = place;
            y.image[PLACE_AT + 1] = place >> 8;
            put_depth(y.image, depth);
            judged(s, &y);
        }
    }
}

static void some_damage(const struct strip *s, unsigned most)
{
    static struct lent y;
    for (int n = 0; n < DAMAGES; n++) {
        const unsigned k = below(most + 1);
        if (code_of(answers[k]) != BUDGET)
            continue;
        copy(&y, &after[k]);
        damage(s, &y);
        if (y.image_len < IMAGE_BYTES || y.results_len != after[k].results_len || y.memory_len != after[k].memory_len)
            continue;
        judged(s, &y);
    }
}

/* --- strips ------------------------------------------------------------------------------------------------------- */

/* Where the budgets of a run are to begin: of a few parts made by chance, the one with the deepest stack in its middle. */
static unsigned some_part(const struct strip *s, const struct lent *x, unsigned whole, unsigned most)
{
    static struct lent y;
    unsigned first = 0, deepest = 0;
    for (int n = 0; most < whole && n < PARTS; n++) {
        const unsigned k = below(whole - most + 1);
        copy(&y, x);
        if (code_of(start(&plain, s, &y, k + most / 2)) == BUDGET && deepest <= depth_in(y.image)) {
            deepest = depth_in(y.image);
            first = k;
        }
    }
    return first;
}

static void tested(const struct strip *s, struct lent *x)
{
    static struct lent y;
    if (plain_check(s->bytes, s->len))
        return;
    x->args_len = SLOT * s->bytes[5];
    x->results_len = SLOT * s->bytes[7];
    x->memory_len = x->memory_len <= MEMORY_MOST ? x->memory_len : 0;
    x->image_len = IMAGE_ROOM;
    copy(&y, x);
    const uint64_t all = run_once(&plain, s, &y, LOOP_BUDGET);
    if (code_of(all) == FORM)
        return;
    strips++;
    const unsigned room = LARGE < x->memory_len ? CUT_LARGE : CUT_MOST, whole = steps_of(all) + 2, most = whole < room ? whole : room;
    every_cut(s, x, some_part(s, x, whole, most), most);
    read_listing(s);
    every_place(s, x);
    some_damage(s, most);
}

/* One with blocks over a stack that is full, or nearly. */
static void make_full(struct strip *s, size_t memory_len)
{
    begin_blocks(memory_len, 0);
    put_full();
    put_items(below(8));
    fit(head.result_kinds, head.results);
    finish(s);
}

/* A loop of two turns with a block that is left from inside, and stores; the same with an access that is out of bounds in the second turn;
   values under blocks; a br in each frame, blocks in the dead part. */
static const struct {
    const char *bytes;
    size_t len;
} fixed[] = {
#define STRIP(bytes) { bytes, sizeof bytes - 1 }
    STRIP("WGP\2\0\0\1\1\x7F\x7F\x03\x40\x02\x40\x20\0\x20\0\xFD\x11\xFD\x58\0\x10\0\x20\0\x41\1\x49\x0D\0\x20\0\xFD\x0C"
          "0123456789ABCDEF\xFD\x0B\0\0\x0B\x20\0\x41\1\x6A\x22\0\x41\2\x49\x0D\0\x0B\x20\0\x0B"),
    STRIP("WGP\2\0\0\1\1\x7F\x7F\x03\x40\x02\x40\x20\0\x20\0\xFD\x11\xFD\x58\0\x10\0\x20\0\x41\1\x49\x0D\0\x20\0\xFD\x0C"
          "0123456789ABCDEF\xFD\x0B\0\xE0\x07\x0B\x20\0\x41\x0F\x6A\x22\0\x41\x40\x49\x0D\0\x0B\x20\0\x0B"),
    STRIP("WGP\2\0\0\1\2\x7F\x7E\x7F\x42\7\x02\x7F\x41\2\x42\3\x03\x7F\x41\4\x20\0\x0D\1\x0B\x21\0\x1A\x20\0\x45\x0D\0\x0B\x0B"),
    STRIP("WGP\2\0\0\1\2\x7F\x7E\x7F\x42\7\x02\x7F\x41\1\x42\3\x02\x7B\x41\4\x41\5\x0D\1\x1A\x41\6\x0C\1\x02\x40\x0C\0\x41\1\x1A\x0B"
          "\xFD\x0C" "0123456789ABCDEF\x0B\x1A\x1A\x0B\x0C\0\x03\x7F\x41\1\x0B\x1A\x0B"),
    STRIP("WGP\1\0\0\0\0\x0B"),
};

int main(int n, char **words)
{
    static struct strip s;
    static struct lent x;
    if (n != 3) {
        fprintf(stderr, "usage: slices CASES SEED\n");
        return 2;
    }
    state = strtoull(words[2], NULL, 10) * 2 + 1;
    for (size_t i = 0; i < sizeof fixed / sizeof *fixed; i++) {
        memcpy(s.bytes, fixed[i].bytes, s.len = fixed[i].len);
        x.memory_len = 1000;
        lend(&s, &x);
        if (plain_check(s.bytes, s.len))
            differs("check", &s, i, 0);
        tested(&s, &x);
    }
    for (unsigned long i = strtoul(words[1], NULL, 10); i; i--) {
        x.memory_len = i % 100 ? some_length(1) : MEMORY_MOST;
        if (i % 16 == 0)
            make_full(&s, x.memory_len);
        else if (i % 2)
            make_blocks(&s, x.memory_len, 0);
        else
            make_straight(&s, 1 + below(2), x.memory_len);
        lend(&s, &x);
        tested(&s, &x);
    }
    printf("%lu strips, %lu ways to cut them, %lu images, %lu of them good; %lu differ\n", strips, cuts, images, taken, differing);
    return differing != 0;
}
