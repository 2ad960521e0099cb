/* What the plain interpreter answers for one strip. bench/README.md says how it is asked.
     answer STRIP [budget=N] [args=HEX] [results=N] [memory=N] [data=[OFFSET:]HEX] [show=N]
   STRIP is in hexadecimal, blanks allowed, or - for standard input. */
#include <ctype.h>
#include <stdio.h>
#include <stdlib.h>
#include <string.h>

#include "strip.h"

/* As much memory as document 01's program lends, unless another length is asked for. */
enum { ARGS_MOST = 2 * SLOT * PARAMETERS_MOST, OUT_MOST = 2 * SLOT * RESULTS_MOST, PROGRAM_MEMORY = 65536 };

static uint8_t strip[2 * FILE_MOST], memory[2 * MEMORY_MOST], before[2 * MEMORY_MOST], args[ARGS_MOST], results[OUT_MOST];
static uint8_t listing[LISTING_MOST];
static char text[8 * FILE_MOST];

static void stop(const char *what, const char *word)
{
    fprintf(stderr, "answer: %s: %s\n", what, word);
    exit(2);
}

static size_t unhex(const char *word, uint8_t *out, size_t most)
{
    size_t digits = 0;
    for (const char *c = word; *c; c++) {
        if (isspace((unsigned char)*c))
            continue;
        if (!isxdigit((unsigned char)*c) || digits == 2 * most)
            stop("not hexadecimal, or too long", word);
        const unsigned digit = isdigit((unsigned char)*c) ? *c - '0' : tolower((unsigned char)*c) - 'a' + 10;
        out[digits / 2] = digits % 2 ? out[digits / 2] << 4 | digit : digit;
        digits++;
    }
    if (digits % 2)
        stop("half a byte", word);
    return digits / 2;
}

static unsigned long number(const char *word, unsigned long most)
{
    char *end;
    const unsigned long n = strtoul(word, &end, 0);
    if (end == word || *end || most < n)
        stop("no number, or too large", word);
    return n;
}

/* The part of the word after `name=`, or NULL. */
static const char *after(const char *word, const char *name)
{
    const size_t n = strlen(name);
    return strncmp(word, name, n) || word[n] != '=' ? NULL : word + n + 1;
}

static void put_bytes(const uint8_t *bytes, size_t n)
{
    for (size_t i = 0; i < n; i++)
        printf("%02x", bytes[i]);
    printf("\n");
}

/* Each row of bytes that the run changed, with its first address. */
static void put_changed(size_t len)
{
    for (size_t i = 0; i < len; i++) {
        size_t n = 0;
        while (i + n < len && memory[i + n] != before[i + n])
            n++;
        if (n) {
            printf("changed %zu ", i);
            put_bytes(memory + i, n);
        }
        i += n;
    }
}

static void put_data(char *word)
{
    char *colon = strchr(word, ':');
    size_t at = 0;
    if (colon) {
        *colon = 0;
        at = number(word, sizeof memory);
        word = colon + 1;
    }
    unhex(word, memory + at, sizeof memory - at);
}

int main(int n, char **words)
{
    if (n < 2)
        stop("usage", "answer STRIP [budget=N] [args=HEX] [results=N] [memory=N] [data=[OFFSET:]HEX] [show=N]");
    if (!strcmp(words[1], "-"))
        fread(text, 1, sizeof text - 1, stdin);
    const size_t len = unhex(strcmp(words[1], "-") ? words[1] : text, strip, sizeof strip);
    size_t args_len = len < 8 ? 0 : SLOT * (size_t)strip[5], results_len = len < 8 ? 0 : SLOT * (size_t)strip[7];
    size_t memory_len = PROGRAM_MEMORY, shown = 0;
    uint32_t budget = 1000000;
    for (int i = 2; i < n; i++) {
        const char *value;
        if ((value = after(words[i], "budget")))
            budget = number(value, UINT32_MAX);
        else if ((value = after(words[i], "args")))
            args_len = unhex(value, args, sizeof args);
        else if ((value = after(words[i], "results")))
            results_len = number(value, sizeof results);
        else if ((value = after(words[i], "memory")))
            memory_len = number(value, sizeof memory);
        else if ((value = after(words[i], "data")))
            put_data((char *)value);
        else if ((value = after(words[i], "show")))
            shown = number(value, sizeof memory);
        else
            stop("not understood", words[i]);
    }
    memcpy(before, memory, sizeof memory);
    memset(results, 0xEE, sizeof results);
    const uint64_t a = plain_run(strip, len, args, args_len, memory, memory_len, results, results_len, budget);
    printf("%u %u %u\n", (unsigned)(a & 0xFF), (unsigned)(a >> 8 & 0xFFFFFF), (unsigned)(a >> 32));
    for (size_t i = 0; (a & 0xFF) == DONE && i < results_len; i += SLOT)
        put_bytes(results + i, SLOT);
    put_changed(memory_len);
    if (shown) {
        printf("memory ");
        put_bytes(memory, shown < memory_len ? shown : memory_len);
    }
    fwrite(listing, 1, plain_listing(strip, len, listing), stdout);
    return 0;
}
