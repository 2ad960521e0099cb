/* The lines of a file of cases, what is lent to a case, and what is printed of it. */
#ifndef CASES_H
#define CASES_H

#include <stdio.h>
#include <stdlib.h>
#include <string.h>

#include "strip.h"

enum { LINE_MOST = 1 << 16, FIELDS = 64 };

static char *fields[FIELDS];
static size_t field_count;

/* Each has room for more than is asked. */
static uint8_t strip[FILE_MOST + 1], args[512], memory[MEMORY_MOST + 1], results[128];
static size_t strip_len, args_len, memory_len, results_len;

static void stop(const char *why)
{
    fprintf(stderr, "%s: %s %s\n", why, fields[0], fields[1] ? fields[1] : "");
    exit(1);
}

/* --- the fields of a line ----------------------------------------------------------------------------------------- */

/* Answers whether there is a case in the line. */
static int split(char *line)
{
    field_count = 0;
    for (char *word = strtok(line, " \n"); word; word = strtok(NULL, " \n")) {
        if (field_count == FIELDS)
            stop("too many fields");
        fields[field_count++] = word;
    }
    return field_count && *fields[0] != '#';
}

/* The next case of standard input; answers whether there is one. */
static int next_case(void)
{
    static char line[LINE_MOST];
    while (fgets(line, sizeof line, stdin))
        if (split(line))
            return 1;
    return 0;
}

static const char *field(size_t k)
{
    if (field_count <= k)
        stop("too few fields");
    return fields[k];
}

static size_t number(size_t k, size_t most)
{
    char *end;
    const unsigned long n = strtoul(field(k), &end, 10);
    if (*end || most < n)
        stop("no number, or too large");
    return n;
}

static unsigned digit(char c)
{
    if ('0' <= c && c <= '9')
        return c - '0';
    if (c < 'a' || 'f' < c)
        stop("no digit");
    return c - 'a' + 10;
}

/* Items with full stops between them: digits, or a count, x and digits that are repeated so often. - is none. */
static size_t bytes(size_t k, uint8_t *out, size_t most)
{
    const char *c = field(k);
    size_t n = 0;
    if (!strcmp(c, "-"))
        return 0;
    while (*c) {
        size_t len = strcspn(c, ".");
        const char *x = memchr(c, 'x', len), *digits = x ? x + 1 : c;
        len -= digits - c;
        for (size_t times = x ? strtoul(c, NULL, 10) : 1; times; times--)
            for (size_t i = 0; i < len; i += 2) {
                if (n == most || len % 2)
                    stop("too many bytes, or half a byte");
                out[n++] = digit(digits[i]) << 4 | digit(digits[i + 1]);
            }
        c = digits + len + (digits[len] == '.');
    }
    return n;
}

/* --- what is lent and what is printed ------------------------------------------------------------------------------ */

/* NAME STRIP ARGUMENTS MEMORY RESULTS, after the first word. */
static void lend_to_run(void)
{
    strip_len = bytes(2, strip, sizeof strip);
    args_len = bytes(3, args, sizeof args);
    memory_len = number(4, sizeof memory);
    results_len = number(5, sizeof results);
}

static void refill(void)
{
    for (size_t i = 0; i < memory_len; i++)
        memory[i] = i;
    memset(results, 0xEE, results_len);
}

static void print_name(void)
{
    printf("%s", field(1));
}

static void print_answer(uint64_t a)
{
    printf(" %u %u %u", (unsigned)(a & 0xFF), (unsigned)(a >> 8 & 0xFFFFFF), (unsigned)(a >> 32));
}

static void print_hex(const uint8_t *s, size_t len)
{
    if (len)
        printf(" ");
    for (size_t i = 0; i < len; i++)
        printf("%02x", s[i]);
}

/* The results, and each part of the memory that has changed. */
static void print_left(void)
{
    print_hex(results, results_len);
    for (size_t i = 0; i < memory_len; i++)
        if (memory[i] != (uint8_t)i) {
            if (i == 0 || memory[i - 1] == (uint8_t)(i - 1))
                printf(" %zu:", i);
            printf("%02x", memory[i]);
        }
}

#endif
