/* Shows the parts of a table, or writes the table of one. Usage: parts EDITION FROM [ATOM TO]
 *
 * EDITION is that of the file FROM, and of the one that is written: 1, the old layout, or 2, edition two. A part is shown by its smallest atom
 * and then all of its atoms. With ATOM the table of that atom's part is written to TO. */
#include "flyrules.h"

#include <stdio.h>
#include <stdlib.h>

static uint8_t table[FLY_MAX_TWO + 1]; /* a byte more, so that a file that is too long is refused */
static uint8_t out[FLY_MAX_TWO];       /* as long as any table */
static uint16_t list[FLY_MAX_ATOMS];   /* a word for each atom of any table */

static FILE *open_file(const char *name, const char *mode) {
    FILE *file = fopen(name, mode);
    if (file == NULL) {
        perror(name);
        exit(1);
    }
    return file;
}

/* A table that is not refused has the word A after its first byte, in edition two, or at its start. */
static uint32_t show_parts(size_t n, uint32_t edition) {
    uint32_t refused = fly_parts(table, n, edition, list, FLY_MAX_ATOMS);
    if (refused) return refused;
    const uint8_t *layout = table + (edition == FLY_TWO);
    uint32_t atoms = (uint32_t)(layout[0] + 256 * layout[1]);
    for (uint32_t least = 0; least < atoms; least++) {
        if (list[least] != least) continue;
        printf("part %u:", least);
        for (uint32_t a = least; a < atoms; a++)
            if (list[a] == least) printf(" %u", a);
        printf("\n");
    }
    return 0;
}

static uint32_t write_part(size_t n, uint32_t edition, uint32_t atom, const char *name) {
    fly_written w = fly_part(table, n, edition, atom, out, sizeof out);
    if (w.refused) return w.refused;
    FILE *to = open_file(name, "wb");
    size_t written = fwrite(out, 1, w.bytes, to);
    if (fclose(to) != 0 || written != w.bytes) {
        perror(name);
        exit(1);
    }
    return 0;
}

int main(int count, char **words) {
    if (count != 3 && count != 5) {
        fprintf(stderr, "usage: parts EDITION FROM [ATOM TO]\n");
        return 2;
    }
    FILE *from = open_file(words[2], "rb");
    size_t n = fread(table, 1, sizeof table, from);
    fclose(from);
    uint32_t edition = (uint32_t)strtoul(words[1], NULL, 10);
    uint32_t refused =
        count == 3 ? show_parts(n, edition) : write_part(n, edition, (uint32_t)strtoul(words[3], NULL, 10), words[4]);
    if (refused) fprintf(stderr, "refused %u\n", refused);
    return refused ? 1 : 0;
}
