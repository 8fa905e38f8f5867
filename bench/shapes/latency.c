/*
 * Tells the nanoseconds of one read out of 64 MiB of memory that must wait for the read before it: the best of three
 * rounds, in processor time. Each read is of another line of the processor's caches, far from the last.
 */
#include <stdint.h>
#include <stdio.h>
#include <stdlib.h>
#include <time.h>

enum { LINE = 64, LINES = 1 << 20, READS = 1 << 20 };

static double now(void)
{
    struct timespec time;
    clock_gettime(CLOCK_PROCESS_CPUTIME_ID, &time);
    return (double)time.tv_sec * 1e9 + (double)time.tv_nsec;
}

/* Makes each line lead to another, in one round through all of them. */
static void lead_round(uint32_t *words)
{
    uint64_t state = 88172645463325252u;
    for (uint32_t line = 0; line < LINES; line++)
        words[line * (LINE / 4)] = line;
    for (uint32_t line = LINES - 1; line > 0; line--) {
        state ^= state << 13;
        state ^= state >> 7;
        state ^= state << 17;
        uint32_t other = (uint32_t)(state % line) * (LINE / 4);
        uint32_t kept = words[line * (LINE / 4)];
        words[line * (LINE / 4)] = words[other];
        words[other] = kept;
    }
}

int main(void)
{
    uint32_t *words = malloc((size_t)LINE * LINES);
    if (words == NULL)
        return 2;
    lead_round(words);
    double best = 1e18;
    volatile uint32_t line = 0;
    for (int round = 0; round < 3; round++) {
        double begun = now();
        uint32_t at = line;
        for (int read = 0; read < READS; read++)
            at = words[(size_t)at * (LINE / 4)];
        line = at;
        double each = (now() - begun) / READS;
        best = each < best ? each : best;
    }
    printf("%.1f\n", best);
    free(words);
    return 0;
}
