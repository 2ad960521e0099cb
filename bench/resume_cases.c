/* What crates/resume_test has to print, by the plain interpreter: reads its cases from standard input, as the first lines of
   crates/resume_test/data/cases.txt say how. A budget that is cut into slices and does not come out as one run ends the program. */
#include "cases.h"

enum { LEFT_AT_ONCE = 1 << 10 };

static uint8_t image[IMAGE_BYTES + 64]; /* room for more than is asked */
static size_t image_len;

/* As in a case: a row of equal bytes is one item. */
static void print_items(const uint8_t *s, size_t len)
{
    if (len)
        printf(" ");
    for (size_t i = 0, n, before = 1; i < len; i += n, before = n) {
        for (n = 1; i + n < len && s[i + n] == s[i];)
            n++;
        if (i && (1 < n || 1 < before))
            printf(".");
        if (1 < n)
            printf("%zux", n);
        printf("%02x", s[i]);
    }
}

/* --- cut, slices --------------------------------------------------------------------------------------------------- */

static uint64_t start(uint32_t budget)
{
    return plain_start(strip, strip_len, args, args_len, memory, memory_len, results, results_len, image, image_len, budget);
}

static uint64_t resume(uint32_t budget)
{
    return plain_resume(strip, strip_len, memory, memory_len, results, results_len, image, image_len, budget);
}

static void print_slice(uint32_t budget, uint64_t a)
{
    print_name();
    printf(" %u", budget);
    print_answer(a);
    print_left();
    print_items(image, image_len);
    printf("\n");
}

static void cut(void)
{
    lend_to_run();
    image_len = number(6, sizeof image);
    refill();
    memset(image, 0xEE, image_len);
    uint32_t budget = number(7, UINT32_MAX);
    print_slice(budget, start(budget));
    for (size_t k = 8; k < field_count; k++) {
        budget = number(k, UINT32_MAX);
        print_slice(budget, resume(budget));
    }
}

static uint32_t mixed(uint32_t h, uint32_t n)
{
    return 16777619 * h + n;
}

static uint32_t digest(uint32_t h, uint64_t a)
{
    h = mixed(mixed(mixed(h, a & 0xFF), a >> 8 & 0xFFFFFF), a >> 32);
    for (size_t i = 0; i < memory_len; i++)
        h = mixed(h, memory[i]);
    for (size_t i = 0; i < results_len; i++)
        h = mixed(h, results[i]);
    for (size_t i = 0; i < image_len; i++)
        h = mixed(h, image[i]);
    return h;
}

/* Where a run ends with a budget: `sum` has its code and place, and its steps. */
static void hold_to_one_run(uint64_t sum, uint32_t budget)
{
    static uint8_t m[sizeof memory], r[sizeof results];
    memcpy(m, memory, memory_len);
    memcpy(r, results, results_len);
    refill();
    if (sum != plain_run(strip, strip_len, args, args_len, memory, memory_len, results, results_len, budget)
        || memcmp(m, memory, memory_len) || memcmp(r, results, results_len))
        stop("slices that are not one run");
    memcpy(memory, m, memory_len);
    memcpy(results, r, results_len);
}

/* All three are called, also where the one before was not out of budget; the image is then as that left it. */
static uint32_t cut_in_three(uint32_t h, uint32_t a, uint32_t b, uint32_t c)
{
    refill();
    memset(image, 0xEE, image_len);
    uint64_t sum = start(a);
    hold_to_one_run(sum, a);
    int cut = (sum & 0xFF) == BUDGET;
    const uint64_t second = resume(b);
    h = digest(h, second);
    if (cut) {
        sum = second + (sum >> 32 << 32);
        hold_to_one_run(sum, a + b);
        cut = (sum & 0xFF) == BUDGET;
    }
    const uint64_t third = resume(c);
    if (cut)
        hold_to_one_run(third + (sum >> 32 << 32), a + b + c);
    return digest(h, third);
}

static void slices(void)
{
    lend_to_run();
    image_len = IMAGE_BYTES;
    const uint32_t last = number(6, LEFT_AT_ONCE);
    for (uint32_t a = 0; a <= last; a++) {
        uint32_t h = 5381;
        for (uint32_t b = 0; a + b <= last; b++)
            h = cut_in_three(h, a, b, last - a - b);
        refill();
        memset(image, 0xEE, image_len);
        const uint64_t first = start(a);
        print_name();
        printf(" %u", a);
        print_answer(first);
        print_left();
        print_items(image, image_len);
        printf(" %08x\n", h);
    }
}

/* --- resume, places, bytes ----------------------------------------------------------------------------------------- */

static void resume_one(void)
{
    static uint8_t before[sizeof image];
    strip_len = bytes(2, strip, sizeof strip);
    memory_len = number(3, sizeof memory);
    results_len = number(4, sizeof results);
    image_len = bytes(6, image, sizeof image);
    const uint32_t budget = number(5, UINT32_MAX);
    memcpy(before, image, image_len);
    refill();
    const uint64_t a = resume(budget);
    print_name();
    printf(" %u", budget);
    print_answer(a);
    print_left();
    if (memcmp(before, image, image_len))
        print_items(image, image_len);
    else
        printf(" kept");
    printf("\n");
}

/* No step: whatever it answers, all that is lent stays as it was. */
static uint64_t zero_slice(void)
{
    static uint8_t before[sizeof image];
    memcpy(before, image, image_len);
    refill();
    const uint64_t a = resume(0);
    if (memcmp(before, image, image_len))
        stop("an image that is not kept");
    return a;
}

static void places(void)
{
    strip_len = bytes(2, strip, sizeof strip);
    memory_len = 16;
    results_len = number(3, sizeof results);
    const size_t deepest = number(4, LEFT_AT_ONCE);
    image_len = bytes(5, image, sizeof image);
    print_name();
    for (size_t place = 0; place <= strip_len; place++)
        for (size_t depth = 0; depth <= deepest; depth++) {
            image[PLACE_AT] = place;
            image[PLACE_AT + 1] = place >> 8;
            image[DEPTH_AT] = depth;
            image[DEPTH_AT + 1] = depth >> 8;
            const uint64_t a = zero_slice();
            if (a != answer(IMAGE, 0, 0))
                printf(" %u:%zu", (unsigned)(a >> 8 & 0xFFFFFF), depth);
            if (a != answer(IMAGE, 0, 0) && a != answer(BUDGET, place, 0))
                stop("another answer");
        }
    printf("\n");
}

static void every_byte(void)
{
    strip_len = bytes(2, strip, sizeof strip);
    memory_len = 16;
    results_len = number(3, sizeof results);
    const uint8_t flip = number(4, 255);
    image_len = bytes(5, image, sizeof image);
    print_name();
    printf(" %u", flip);
    for (size_t i = 0; i < image_len; i++) {
        image[i] ^= flip;
        const uint64_t a = zero_slice();
        if (a != answer(IMAGE, 0, 0))
            printf(" %zu", i);
        image[i] ^= flip;
    }
    printf("\n");
}

int main(void)
{
    while (next_case())
        switch (*fields[0]) {
        case 's': slices(); break;
        case 'c': cut(); break;
        case 'r': resume_one(); break;
        case 'p': places(); break;
        case 'b': every_byte(); break;
        default: stop("no such case");
        }
    return 0;
}
