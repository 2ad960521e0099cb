/* What crates/strip_test has to print, by the plain check, run, rewriter and lister: reads its cases from standard input, as the first
   lines of crates/strip_test/data/cases.txt say how. */
#include "cases.h"
#include "rewrite.h"

static uint8_t out[LISTING_MOST], whole[LISTING_MOST];
static size_t out_len;

static int all_ee(const uint8_t *s, size_t len)
{
    for (size_t i = 0; i < len; i++)
        if (s[i] != 0xEE)
            return 0;
    return 1;
}

static size_t length_of(uint64_t a)
{
    return a >> 32;
}

static void check(void)
{
    strip_len = bytes(2, strip, sizeof strip);
    print_name();
    print_answer(plain_check(strip, strip_len));
    printf("\n");
}

/* --- run, budgets -------------------------------------------------------------------------------------------------- */

static void run_at(uint32_t budget)
{
    refill();
    const uint64_t a = plain_run(strip, strip_len, args, args_len, memory, memory_len, results, results_len, budget);
    print_name();
    printf(" %u", budget);
    print_answer(a);
    print_left();
    printf("\n");
}

static void run(void)
{
    lend_to_run();
    run_at(number(6, UINT32_MAX));
}

static void budgets(void)
{
    lend_to_run();
    const uint32_t last = number(6, UINT32_MAX - 1);
    for (uint32_t k = 0; k <= last; k++)
        run_at(k);
}

/* --- shorten, list, rooms ------------------------------------------------------------------------------------------ */

static void lend_output(size_t len)
{
    out_len = len;
    memset(out, 0xEE, len);
}

static void shorten(void)
{
    strip_len = bytes(2, strip, sizeof strip);
    lend_output(number(3, sizeof out));
    print_name();
    print_answer(plain_rewrite(strip, strip_len, out, out_len));
    print_hex(out, out_len);
    printf("\n");
}

/* The listing stands in the lines below, but for the bytes that are passed over. */
static void list(void)
{
    strip_len = bytes(2, strip, sizeof strip);
    lend_output(number(3, sizeof out));
    const size_t over = field_count < 5 ? 0 : number(4, sizeof out);
    const uint64_t a = plain_list(strip, strip_len, out, out_len);
    const size_t n = length_of(a);
    print_name();
    print_answer(a);
    printf("%s\n", all_ee(out + n, out_len - n) ? "" : " touched");
    if (over < n)
        fwrite(out + over, 1, n - over, stdout);
}

static void room(size_t k)
{
    lend_output(k);
    const uint64_t a = plain_list(strip, strip_len, out, k);
    const size_t n = length_of(a);
    print_name();
    printf(" %zu", k);
    print_answer(a);
    printf(" %s\n", all_ee(out, k) ? "kept" : all_ee(out + n, k - n) && !memcmp(out, whole, n) ? "whole" : "other");
}

static void rooms(void)
{
    strip_len = bytes(2, strip, sizeof strip);
    const size_t last = number(3, sizeof out);
    plain_list(strip, strip_len, whole, sizeof whole);
    for (size_t k = 0; k <= last; k++)
        room(k);
}

int main(void)
{
    while (next_case())
        switch (*fields[0]) {
        case 'c': check(); break;
        case 'r': fields[0][1] == 'o' ? rooms() : run(); break;
        case 'b': budgets(); break;
        case 's': shorten(); break;
        case 'l': list(); break;
        default: stop("no such case");
        }
    return 0;
}
