/* Writes the run file of a workload to standard output: workload [SEED [STEPS]],
   by default 20 steps of seed 1. */
#include "gevtsomi.h"

#include <stdio.h>
#include <stdlib.h>

/* 3 clients, 2 volumes and 4 objects; volume lease 10, object lease 100, timeout
   3; objects 0 and 1 in volume 0, 2 and 3 in volume 1; delay 1 */
static const uint8_t setup[GEVTSOMI_SETUP_BYTES] = {
    3, 2, 4, 0, 10, 0, 0, 0, 100, 0, 0, 0, 3, 0, 0, 0,
    0, 0, 1, 1, 0,  0, 0, 0, 0,   0, 0, 0, 0, 0, 0, 0,
    0, 0, 0, 0, 0,  0, 0, 0, 0,   0, 0, 0, 1, 0, 0, 0};
/* Not on the stack, which the call needs for itself. */
static uint8_t file[GEVTSOMI_FILE_BYTES];

/* Returns whether the text is a 32-bit number, and stores the number. */
static int number(const char *text, uint32_t *value)
{
    char *end;
    unsigned long long found = strtoull(text, &end, 10);
    *value = (uint32_t)found;
    return text[0] >= '0' && text[0] <= '9' && *end == '\0' && found <= UINT32_MAX;
}

int main(int argc, char **argv)
{
    uint32_t seed = 1;
    uint32_t steps = 20;
    size_t written = 0;
    uint8_t refusal;
    if (argc > 3 || (argc > 1 && !number(argv[1], &seed)) ||
        (argc > 2 && !number(argv[2], &steps))) {
        fprintf(stderr, "expected a seed and a number of steps\n");
        return 2;
    }
    /* There is no note: its length is 0, but its address must not be null. */
    refusal = gevtsomi_workload(seed, setup, 0, setup, sizeof setup, steps, file, sizeof file,
                                &written);
    if (refusal != GEVTSOMI_DONE) {
        fprintf(stderr, "refused, %d\n", refusal);
        return 1;
    }
    if (fwrite(file, 1, written, stdout) != written || fflush(stdout) != 0) {
        perror("standard output");
        return 1;
    }
    return 0;
}
