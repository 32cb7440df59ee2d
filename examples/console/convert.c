/* Writes a table in the other edition. Usage: convert EDITION FROM TO
 *
 * EDITION is that of the file FROM: 1, the old layout, is written in edition two, and 2, edition two, back in the old layout. */
#include "flyrules.h"

#include <stdio.h>
#include <stdlib.h>

static uint8_t table[FLY_MAX_TWO + 1]; /* a byte more, so that a file that is too long is refused */
static uint8_t out[FLY_MAX_TWO];       /* as long as any table */

static FILE *open_file(const char *name, const char *mode) {
    FILE *file = fopen(name, mode);
    if (file == NULL) {
        perror(name);
        exit(1);
    }
    return file;
}

int main(int count, char **words) {
    if (count != 4) {
        fprintf(stderr, "usage: convert EDITION FROM TO\n");
        return 2;
    }
    FILE *from = open_file(words[2], "rb");
    size_t n = fread(table, 1, sizeof table, from);
    fclose(from);
    fly_written w = fly_convert(table, n, (uint32_t)strtoul(words[1], NULL, 10), out, sizeof out);
    if (w.refused) {
        fprintf(stderr, "refused %u\n", w.refused);
        return 1;
    }
    FILE *to = open_file(words[3], "wb");
    size_t written = fwrite(out, 1, w.bytes, to);
    if (fclose(to) != 0 || written != w.bytes) {
        perror(words[3]);
        return 1;
    }
    return 0;
}
