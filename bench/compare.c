/* Holds the proved doors to the plain ones: answers of check and run, memory and results; and runs in slices to one run.
     compare CASES SEED LISTER OFFICIAL..
   every strip of the official tests with its own arguments; strips as long as a file may be, and a byte longer; then CASES strips made by
   chance, of both versions by turns: a third well typed, a third such ones spoilt, a third official ones spoilt. Most are then run in
   slices, whose images are at times damaged. LISTER is the command that starts the proved lister: it lists each official strip, the long
   ones and one in about a hundred of those made by chance. */
#include <stdio.h>
#include <stdlib.h>
#include <string.h>

#include "lent.h"

enum { STRIPS = 4096, HEX_MOST = 2048 };

static struct strip official[STRIPS];
static size_t officials;
static unsigned long cases, differing, codes[256], completed[INSTRUCTIONS];

/* --- both sides, one case ----------------------------------------------------------------------------------------- */

static void hex(const uint8_t *s, size_t len)
{
    for (size_t i = 0; i < len && i < STRIP_MOST; i++)
        printf(" %02X", s[i]);
    printf("\n");
}

static void show(const char *what, uint64_t a, uint64_t b)
{
    printf("  %s: plain %u %u %u, proved %u %u %u\n", what, (unsigned)(a & 0xFF), (unsigned)(a >> 8 & 0xFFFFFF), (unsigned)(a >> 32),
           (unsigned)(b & 0xFF), (unsigned)(b >> 8 & 0xFFFFFF), (unsigned)(b >> 32));
}

/* Leaves in x what the plain run left there. Answers what the run answers. */
static uint64_t compared(const uint8_t *s, size_t len, struct lent *x)
{
    static struct lent y;
    memcpy(y.memory, x->memory, x->memory_len);
    memcpy(y.results, x->results, sizeof y.results);
    const uint64_t check = plain_check(s, len), proved_check = gevurlat_check(s, len);
    const uint64_t run = plain_run(s, len, x->args, x->args_len, x->memory, x->memory_len, x->results, x->results_len, x->budget);
    const uint64_t proved_run = gevurlat_run(s, len, x->args, x->args_len, y.memory, x->memory_len, y.results, x->results_len, x->budget);
    const int memory = memcmp(x->memory, y.memory, x->memory_len), results = memcmp(x->results, y.results, sizeof y.results);
    cases++;
    codes[run & 0xFF]++;
    if (check != proved_check || run != proved_run || memory || results) {
        differing++;
        printf("differs, budget %u, memory %zu%s%s:", x->budget, x->memory_len, memory ? ", memory after" : "", results ? ", results" : "");
        hex(s, len);
        show("check", check, proved_check);
        show("run", run, proved_run);
    }
    return run;
}

/* --- in slices ---------------------------------------------------------------------------------------------------- */

static const struct doors plain = { plain_run, plain_start, plain_resume }, proved = { gevurlat_run, gevurlat_start, gevurlat_resume };
static unsigned long cuts, slices, cut_otherwise, damaged_codes[256];

static void otherwise(const char *what, const struct strip *s, const struct lent *x, uint32_t budget, uint64_t a, uint64_t b)
{
    cut_otherwise++;
    printf("%s otherwise, budget %u, memory %zu:", what, budget, x->memory_len);
    hex(s->bytes, s->len);
    printf("  image of %zu bytes:", x->image_len);
    hex(x->image, x->image_len);
    show(what, a, b);
}

/* One slice by both, on x and y, which are the same and have to stay so. */
static uint64_t slice(const struct strip *s, struct lent *x, struct lent *y, int first, uint32_t budget)
{
    static struct lent before;
    copy(&before, x);
    const uint64_t a = (first ? start : resume)(&plain, s, x, budget), b = (first ? start : resume)(&proved, s, y, budget);
    slices++;
    if (a != b || !same_left(x, y))
        otherwise(first ? "started" : "resumed", s, &before, budget, a, b);
    return b;
}

static void spoil(struct strip *s);

/* From an image that is damaged, or of a strip that is. */
static void resume_damaged(const struct strip *s, const struct lent *from)
{
    static struct lent x, y;
    static struct strip t;
    t = *s;
    copy(&x, from);
    if (below(8))
        damage(&t, &x);
    else
        spoil(&t);
    copy(&y, &x);
    damaged_codes[code_of(slice(&t, &x, &y, 0, below(4) ? below(60) : 0))]++;
}

/* A budget in up to five slices, some of no steps: the last code and place, all steps, memory and results are those of one run. */
static void cut(const struct strip *s, const struct lent *before, uint32_t budget, uint64_t run, const struct lent *after)
{
    static struct lent x, y;
    uint64_t sum = answer(BUDGET, 0, 0);
    uint32_t left = budget;
    copy(&x, before);
    copy(&y, before);
    for (unsigned n = 0, last = below(5); n <= last && code_of(sum) == BUDGET; n++) {
        uint32_t k = below(6) ? below(steps_of(run) + 2) : 0;
        k = n == last || left < k ? left : k;
        left -= k;
        const uint64_t a = slice(s, &x, &y, n == 0, k);
        sum = (a & 0xFFFFFFFF) + ((uint64_t)(steps_of(sum) + steps_of(a)) << 32);
        if (code_of(a) == BUDGET && !below(3))
            resume_damaged(s, &y);
    }
    cuts++;
    if (code_of(sum) != SMALL && (sum != run || memcmp(y.memory, after->memory, y.memory_len) || memcmp(y.results, after->results, sizeof y.results)))
        otherwise("cut", s, before, budget, run, sum);
}

/* The limits of request C-15, at each and one past it: the memory, the stack, an image's room. */
static void lend_most(void)
{
    static uint8_t memory[MEMORY_MOST + 1], image[IMAGE_BYTES];
    const struct doors *const sides[] = { &plain, &proved };
    for (int side = 0; side < 2; side++)
        for (int more = 0; more < 2; more++) {
            const struct doors *d = sides[side];
            const size_t values = STACK_MOST + more, deep = 8 + 2 * STACK_MOST;
            struct strip s = { { 'W', 'G', 'P', 1, 0, 0, 0, 0 }, 8 };
            for (size_t i = 0; i < values; i++, s.len += 2)
                s.bytes[s.len] = 0x41;
            memset(s.bytes + s.len, 0x1A, values);
            s.len += values;
            s.bytes[s.len++] = END;
            static const uint8_t alone[] = { 'W', 'G', 'P', 1, 0, 0, 0, 0, END };
            if (d->run(s.bytes, s.len, NULL, 0, NULL, 0, NULL, 0, 9999) != (more ? answer(DEEP, deep, 0) : answer(DONE, 0, 2 * values + 1))
                || d->run(alone, sizeof alone, NULL, 0, memory, MEMORY_MOST + more, NULL, 0, 9) != (more ? answer(ROOM, 0, 0) : answer(DONE, 0, 1))
                || d->start(alone, sizeof alone, NULL, 0, NULL, 0, NULL, 0, image, IMAGE_BYTES - more, 9)
                    != (more ? answer(SMALL, 0, 0) : answer(DONE, 0, 1))) {
                cut_otherwise++;
                printf("at the limits, %d past them, the %s doors answer otherwise\n", more, side ? "proved" : "plain");
            }
        }
}

/* Where a length is 0 the pointer may be NULL. */
static void lend_nothing(void)
{
    static const struct strip s = { { 'W', 'G', 'P', 1, 0, 0, 0, 0, END }, 9 };
    const struct doors *const sides[] = { &plain, &proved };
    for (int side = 0; side < 2; side++) {
        const struct doors *d = sides[side];
        uint8_t image[IMAGE_BYTES] = { 0 };
        if (d->run(s.bytes, s.len, NULL, 0, NULL, 0, NULL, 0, 9) != answer(DONE, 0, 1)
            || d->start(s.bytes, s.len, NULL, 0, NULL, 0, NULL, 0, NULL, 0, 9) != answer(SMALL, 0, 0)
            || d->resume(s.bytes, s.len, NULL, 0, NULL, 0, NULL, 0, 9) != answer(SMALL, 0, 0)
            || d->start(s.bytes, s.len, NULL, 0, NULL, 0, NULL, 0, image, sizeof image, 0) != answer(BUDGET, 8, 0)
            || d->resume(s.bytes, s.len, NULL, 0, NULL, 0, image, sizeof image, 9) != answer(DONE, 0, 1)
            || d->run(NULL, 0, NULL, 0, NULL, 0, NULL, 0, 9) != answer(SHORT, 0, 0)
            || d->resume(NULL, 0, NULL, 0, NULL, 0, NULL, 0, 9) != answer(SHORT, 0, 0)) {
            cut_otherwise++;
            printf("%s: nothing is lent, and the answer is another\n", side ? "proved" : "plain");
        }
    }
}

/* --- listings ----------------------------------------------------------------------------------------------------- */

#define LISTED "target/bench/listed.wgp"

static const char *lister;
static unsigned long listings, listed_otherwise;

/* The proved lister is a program: what it prints is held to what the plain one would. */
static void list(const uint8_t *s, size_t len)
{
    static uint8_t plain[LISTING_MOST], proved[LISTING_MOST];
    static char command[4096];
    snprintf(command, sizeof command, "%s <" LISTED, lister);
    FILE *f = fopen(LISTED, "wb");
    if (!f || fwrite(s, 1, len, f) != len || fclose(f) || !(f = popen(command, "r"))) {
        perror(LISTED);
        exit(1);
    }
    const size_t n = fread(proved, 1, sizeof proved, f);
    const int failed = pclose(f);
    listings++;
    if (failed || n != plain_listing(s, len, plain) || memcmp(plain, proved, n)) {
        listed_otherwise++;
        printf("listed otherwise:");
        hex(s, len);
    }
}

/* --- the official strips ------------------------------------------------------------------------------------------ */

static size_t unhex(const char *text, uint8_t *out)
{
    size_t n = 0;
    unsigned b;
    while (sscanf(text + 2 * n, "%2x", &b) == 1)
        out[n++] = b;
    return n;
}

static void run_official(const char *path)
{
    static char line[2 * HEX_MOST], word[16], first[HEX_MOST];
    static struct lent x, before;
    FILE *f = fopen(path, "r");
    if (!f) {
        perror(path);
        exit(1);
    }
    x.budget = UINT32_MAX;
    struct strip *const strips = official + officials; /* each file numbers its own */
    while (fgets(line, sizeof line, f)) {
        unsigned id = 0;
        const int fields = sscanf(line, "%15s %u %2047s", word, &id, first);
        if (!strcmp(word, "memory") && fields == 2)
            memset(x.memory, 0, x.memory_len = id);
        else if (!strcmp(word, "data"))
            unhex(first, x.memory + id);
        else if (!strcmp(word, "strip")) {
            strips[id].len = unhex(first, strips[id].bytes);
            officials = &strips[id + 1] - official;
            list(strips[id].bytes, strips[id].len);
        } else if (!strcmp(word, "call") || !strcmp(word, "trap") || !strcmp(word, "refuse")) {
            x.args_len = *word == 'r' ? 0 : unhex(first, x.args);
            x.results_len = SLOT * strips[id].bytes[7];
            memset(x.results, 0xEE, sizeof x.results);
            x.image_len = IMAGE_BYTES;
            copy(&before, &x);
            const uint64_t run = compared(strips[id].bytes, strips[id].len, &x);
            cut(&strips[id], &before, x.budget, run, &x);
        }
    }
    fclose(f);
}

/* --- long strips -------------------------------------------------------------------------------------------------- */

/* Constants that are dropped again, the first with padding, so that `end` is the last of so many bytes. */
static void run_long(size_t len)
{
    static uint8_t s[FILE_MOST + 1] = { 'W', 'G', 'P', 1, 0, 0, 0, 0, I32_CONST };
    static struct lent x;
    size_t at = 9;
    for (size_t padding = (len - at) % 3; padding; padding--)
        s[at++] = 0x80;
    for (; at + 3 < len; at += 3)
        memcpy(s + at, "\x05\x1A\x41", 3);
    memcpy(s + at, "\x05\x1A\x0B", 3);
    x.budget = UINT32_MAX;
    compared(s, len, &x);
    list(s, len);
}

/* --- strips made by chance ---------------------------------------------------------------------------------------- */

static void put_in(struct strip *s, size_t at, uint8_t b)
{
    memmove(s->bytes + at + 1, s->bytes + at, s->len++ - at);
    s->bytes[at] = b;
}

/* A place of the header, or more often one after it. */
static size_t some_place(const struct strip *s)
{
    const size_t head = s->len < 8 ? s->len : 8 + s->bytes[5] + s->bytes[6] + s->bytes[7];
    return s->len <= head || !below(8) ? below(s->len) : head + below(s->len - head);
}

/* One to three changes: bytes changed, put in or taken out, or the end cut off. */
static void spoil(struct strip *s)
{
    for (unsigned n = 1 + below(3); n && s->len; n--) {
        const size_t at = some_place(s);
        switch (below(16)) {
        case 0:
            put_in(s, at, chance() >> 56);
            break;
        case 1:
            memmove(s->bytes + at, s->bytes + at + 1, --s->len - at);
            break;
        case 2:
            if (!below(2))
                s->len = at;
            break;
        case 3:
            s->bytes[at] ^= 0x80;
            break;
        case 4:
            s->bytes[at] += 1 - 2 * below(2);
            break;
        case 5:
            if (!below(2))
                put_in(s, s->len, below(2) ? END : chance() >> 56);
            break;
        case 6: /* a number with more padding */
            for (unsigned k = 1 + below(5); k; k--)
                put_in(s, at, 0x80);
            break;
        case 7:
            put_in(s, at, chance() >> 56);
            put_in(s, at, PREFIX);
            break;
        case 8: /* the other version */
            if (8 <= s->len && !below(4))
                s->bytes[3] ^= 3;
            break;
        case 9: /* a lane, a kind, another label */
            s->bytes[at] = below(4) ? below(18) : all_kinds[below(3)];
            break;
        default: {
            static const uint8_t firsts[] = {
                BLOCK, LOOP, END, BR, BR_IF, DROP, LOCAL_GET, LOCAL_SET, LOCAL_TEE, I32_CONST, I64_CONST, I32_EQZ, I32_LT_U, I32_ADD, PREFIX
            };
            s->bytes[at] = below(4) ? firsts[below(sizeof firsts)] : chance() >> 56;
        }
        }
    }
}

/* Strips with blocks that were not spoilt: what came of them. More steps than instructions means that a loop turned, fewer that a branch
   passed over some. */
static struct {
    unsigned long made, passed, done, trapped, spent, more, fewer;
} whole;

static void note(const struct strip *s, uint64_t run)
{
    const uint64_t steps = run >> 32, instructions = body.count + 1;
    const unsigned code = run & 0xFF;
    whole.made++;
    whole.passed += plain_check(s->bytes, s->len) == answer(DONE, 0, 0);
    whole.done += code == DONE;
    whole.trapped += code == TRAP;
    whole.spent += code == BUDGET;
    whole.more += code == DONE && instructions < steps;
    whole.fewer += code == DONE && steps < instructions;
}

/* Of the version, if there is one. */
static const struct strip *some_official(uint8_t version)
{
    const struct strip *s = &official[below(officials)];
    for (int tries = 100; tries && s->bytes[3] != version; tries--)
        s = &official[below(officials)];
    return s;
}

/* Versions by turns: whole strips, strips that slip or are spoilt, official ones spoilt. In version 2 most strips have blocks. */
static void run_chance(unsigned long n)
{
    static struct lent x, again;
    static struct strip s;
    for (unsigned long i = 0; i < n; i++) {
        const uint8_t version = 1 + i % 2;
        const int straight = version == 1 || !below(8), is_whole = i / 2 % 3 == 0, is_official = i / 2 % 3 == 2;
        const int slips = !is_whole && !straight && below(2);
        x.memory_len = some_length(!straight);
        if (is_official)
            s = *some_official(version);
        else if (straight)
            make_straight(&s, version, x.memory_len);
        else
            make_blocks(&s, x.memory_len, slips);
        if (is_official || (!is_whole && !slips))
            spoil(&s);
        if (i % 101 == 0)
            list(s.bytes, s.len);
        lend(&s, &x);
        copy(&again, &x);
        const uint64_t run = compared(s.bytes, s.len, &x);
        const int done = (run & 0xFF) == DONE;
        if (version == 2 || !below(4))
            cut(&s, &again, x.budget, run, &x);
        if (is_whole && !straight)
            note(&s, run);
        if (is_whole && straight && done)
            for (size_t k = 0; k < body.count; k++)
                completed[body.used[k]]++;
        if (version == 2 && done) { /* again, with just as many steps as it takes, one less, or any number below */
            again.budget = below(3) ? (run >> 32) - below(2) : below(run >> 32);
            compared(s.bytes, s.len, &again);
        }
    }
}

static void report(void)
{
    unsigned long damaged = 0;
    for (int c = 0; c < 256; c++)
        damaged += damaged_codes[c];
    printf("in slices: %lu runs, %lu slices, %lu differ; images or strips damaged in between: %lu, by code:", cuts, slices, cut_otherwise,
           damaged);
    for (int c = 0; c < 256; c++)
        if (damaged_codes[c])
            printf(" %d:%lu", c, damaged_codes[c]);
    printf("\n");
    printf("listings: %lu, %lu differ\n", listings, listed_otherwise);
    printf("all: %lu cases, %lu differ\nby code:", cases, differing);
    for (int c = 0; c < 256; c++)
        if (codes[c])
            printf(" %d:%lu", c, codes[c]);
    printf("\nwith blocks, not spoilt: %lu, of these %lu pass the check, %lu DONE, %lu TRAP, %lu BUDGET\n", whole.made, whole.passed,
           whole.done, whole.trapped, whole.spent);
    printf("of those DONE %lu took more steps than they have instructions, %lu fewer\n", whole.more, whole.fewer);
    unsigned long carried = 0, least = -1;
    for (int op = 0; op < INSTRUCTIONS; op++)
        if (NONE <= rows[op].immediates && rows[op].immediates < LABEL_INDEX && op != END) {
            carried++;
            if (completed[op] < least)
                least = completed[op];
        }
    printf("each of the %lu instructions without blocks completed at least %lu times in straight strips that were DONE\n", carried, least);
}

int main(int n, char **words)
{
    if (n < 5) {
        fprintf(stderr, "usage: compare CASES SEED LISTER OFFICIAL..\n");
        return 2;
    }
    lister = words[3];
    state = strtoull(words[2], NULL, 10) * 2 + 1;
    for (int i = 4; i < n; i++)
        run_official(words[i]);
    printf("official: %lu cases, %lu differ\n", cases, differing);
    lend_nothing();
    lend_most();
    for (size_t len = FILE_MOST - 2; len <= FILE_MOST + 1; len++)
        run_long(len);
    run_chance(strtoul(words[1], NULL, 10));
    report();
    return differing != 0 || cut_otherwise != 0 || listed_otherwise != 0;
}
