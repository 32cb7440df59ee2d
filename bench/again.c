/* again FUNCTION TIMES|stack [WHAT]: that call so many times on the table on standard input; the first word that is printed is the processor time
 * of one, in nanoseconds. With `stack`, one call on a painted stack, and how many bytes of it the call takes. After it come the refusal, and a
 * sum over the output. WHAT is the tour's file for fly_join, an atom for fly_part and a rule for fly_stands. With WITHOUT_READING it is built for
 * an archive of before S-9, whose fly_run is told no reading. */
#define _DEFAULT_SOURCE
#ifdef WITHOUT_READING
#define fly_run fly_run_in_a_reading /* what the header declares, and this archive lacks */
#endif
#include "flyrules.h"

#include <pthread.h>
#include <stdio.h>
#include <stdlib.h>
#include <string.h>
#include <time.h>

#ifdef WITHOUT_READING
#undef fly_run
fly_answer fly_run(const uint8_t *table, size_t table_len, uint32_t edition, uint32_t budget, uint16_t *log, size_t log_len,
                   uint16_t *scratch, size_t scratch_len);
#define TOLD(edition) edition
#else
#define TOLD(edition) edition, FLY_PLAIN
#endif

enum { STACK = 1 << 20 };

static uint8_t table[FLY_MAX_TWO + 1], tour[FLY_MAX_TWO + 1], out[FLY_MAX_TWO];
static uint16_t list[FLY_MAX_ATOMS], run_log[FLY_LOG], scratch[FLY_SCRATCH];
static size_t len, tour_len;
static uint32_t edition, number;

static uint32_t none(void) { return 0; }
static uint32_t run(void) { return fly_run(table, len, TOLD(edition), FLY_MAX_SPENT, run_log, FLY_LOG, scratch, FLY_SCRATCH).refused; }
static uint32_t stands(void) { return fly_stands(table, len, edition, number, run_log, FLY_LOG).refused; }
static uint32_t convert(void) { return fly_convert(table, len, edition, out, sizeof out).refused; }
static uint32_t join(void) { return fly_join(table, len, tour, tour_len, edition, out, sizeof out).refused; }
static uint32_t parts(void) { return fly_parts(table, len, edition, list, FLY_MAX_ATOMS); }
static uint32_t part(void) { return fly_part(table, len, edition, number, out, sizeof out).refused; }

typedef uint32_t call(void);
static const struct {
    const char *name;
    call *make;
} CALLS[] = {{"fly_run", run}, {"fly_stands", stands}, {"fly_convert", convert}, {"fly_join", join}, {"fly_parts", parts}, {"fly_part", part}};

static call *named(const char *name)
{
    for (size_t i = 0; i < sizeof CALLS / sizeof *CALLS; i++)
        if (strcmp(CALLS[i].name, name) == 0)
            return CALLS[i].make;
    return NULL;
}

static void *on_stack(void *made)
{
    (*(call **)made)();
    return made;
}

/* The bytes of a painted stack that a thread changed which makes this call; it is made once before, so that no symbol is looked up. */
static size_t painted(call *make)
{
    uint8_t *stack;
    pthread_attr_t attributes;
    pthread_t thread;
    size_t i = 0;
    if (posix_memalign((void **)&stack, 4096, STACK) != 0)
        exit(1);
    memset(stack, 0xA5, STACK);
    if (pthread_attr_init(&attributes) != 0 || pthread_attr_setstack(&attributes, stack, STACK) != 0 ||
        pthread_create(&thread, &attributes, on_stack, &make) != 0 || pthread_join(thread, NULL) != 0)
        exit(1);
    while (i < STACK && stack[i] == 0xA5)
        i++;
    free(stack);
    return STACK - i;
}

static double nanoseconds(call *make, unsigned long times)
{
    struct timespec from, to;
    clock_gettime(CLOCK_PROCESS_CPUTIME_ID, &from);
    for (unsigned long i = 0; i < times; i++)
        make();
    clock_gettime(CLOCK_PROCESS_CPUTIME_ID, &to);
    return ((double)(to.tv_sec - from.tv_sec) * 1e9 + (double)(to.tv_nsec - from.tv_nsec)) / (double)times;
}

int main(int argc, char **argv)
{
    call *make = argc == 3 || argc == 4 ? named(argv[1]) : NULL;
    if (make == NULL)
        return fprintf(stderr, "usage: again FUNCTION TIMES|stack [TOUR|ATOM|RULE]\n"), 2;
    len = fread(table, 1, sizeof table, stdin);
    edition = len % 2 == 1 && table[0] == FLY_TWO ? FLY_TWO : FLY_OLD;
    if (argc == 4 && make == join) {
        FILE *file = fopen(argv[3], "rb");
        if (file == NULL)
            return fprintf(stderr, "again: no file %s\n", argv[3]), 1;
        tour_len = fread(tour, 1, sizeof tour, file);
        fclose(file);
    } else if (argc == 4) {
        number = (uint32_t)strtoul(argv[3], NULL, 10);
    }
    uint32_t refused = make(), sum = 0;
    for (size_t i = 0; i < sizeof out; i++)
        sum = 31 * sum + out[i];
    if (strcmp(argv[2], "stack") == 0)
        printf("%zu", painted(make) - painted(none));
    else
        printf("%.1f", nanoseconds(make, strtoul(argv[2], NULL, 10)));
    printf(" refused %u sum %u\n", (unsigned)refused, (unsigned)sum);
    return 0;
}
