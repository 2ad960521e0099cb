/* A strip from standard input, its listing on standard output; of a strip that is turned away one line, code and place. */
#include <stdio.h>

#include "strip.h"

static uint8_t strip[FILE_MOST + 1], out[LISTING_MOST];

int main(void)
{
    const size_t len = fread(strip, 1, sizeof strip, stdin);
    fwrite(out, 1, plain_listing(strip, len, out), stdout);
    return ferror(stdin) || fflush(stdout) || ferror(stdout);
}
