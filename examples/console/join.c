/* Writes a house's table and a tour's in one. Usage: join EDITION HOUSE TOUR TO
 *
 * EDITION is that of both files, and of the one that is written: 1, the old layout, or 2, edition two. */
#include "flyrules.h"

#include <stdio.h>
#include <stdlib.h>

static uint8_t house[FLY_MAX_TWO + 1], tour[FLY_MAX_TWO + 1]; /* a byte more, so that a file that is too long is refused */
static uint8_t out[FLY_MAX_TWO];                              /* as long as any table */

static FILE *open_file(const char *name, const char *mode) {
    FILE *file = fopen(name, mode);
    if (file == NULL) {
        perror(name);
        exit(1);
    }
    return file;
}

static size_t read_table(const char *name, uint8_t table[FLY_MAX_TWO + 1]) {
    FILE *from = open_file(name, "rb");
    size_t n = fread(table, 1, FLY_MAX_TWO + 1, from);
    fclose(from);
    return n;
}

int main(int count, char **words) {
    if (count != 5) {
        fprintf(stderr, "usage: join EDITION HOUSE TOUR TO\n");
        return 2;
    }
    size_t house_len = read_table(words[2], house), tour_len = read_table(words[3], tour);
    fly_written w = fly_join(house, house_len, tour, tour_len, (uint32_t)strtoul(words[1], NULL, 10), out, sizeof out);
    if (w.refused) {
        fprintf(stderr, "refused %u\n", w.refused);
        return 1;
    }
    FILE *to = open_file(words[4], "wb");
    size_t written = fwrite(out, 1, w.bytes, to);
    if (fclose(to) != 0 || written != w.bytes) {
        perror(words[4]);
        return 1;
    }
    return 0;
}
