/* Tells why reads of the run file on standard input were answered "ask first":
   why [STEP], by default all of them, one line each. */
#include "gevtsomi.h"

#include <inttypes.h>
#include <stdio.h>
#include <stdlib.h>

/* Not on the stack, which the call needs for itself. The file has room for one
   byte too many, so that an over-long file is refused and not truncated. */
static uint8_t file[GEVTSOMI_FILE_BYTES + 1];

static const char *words(uint8_t reason)
{
    switch (reason) {
    case GEVTSOMI_NEVER_GRANTED:
        return "never granted";
    case GEVTSOMI_COPY_INVALIDATED:
        return "copy invalidated";
    case GEVTSOMI_LEASES_DROPPED:
        return "leases dropped on an OFFER or a BATCH";
    case GEVTSOMI_CLIENT_RESTARTED:
        return "client restarted";
    case GEVTSOMI_VOLUME_LEASE_RAN_OUT:
        return "volume lease ran out";
    case GEVTSOMI_OBJECT_LEASE_RAN_OUT:
        return "object lease ran out";
    default:
        return "not a read answered \"ask first\"";
    }
}

static void print(uint32_t step, uint8_t reason, uint32_t event)
{
    printf("%" PRIu32 ": %s", step, words(reason));
    if (reason >= GEVTSOMI_VOLUME_LEASE_RAN_OUT) {
        printf("; granted in step %" PRIu32, event);
    } else if (event > 0) {
        printf(" in step %" PRIu32, event);
    }
    printf("\n");
}

/* Returns whether the text is the number of a step, and stores the number. */
static int number(const char *text, uint32_t *step)
{
    char *end;
    unsigned long found = strtoul(text, &end, 10);
    *step = (uint32_t)found;
    return text[0] >= '0' && text[0] <= '9' && *end == '\0' && found <= GEVTSOMI_STEPS;
}

int main(int argc, char **argv)
{
    size_t read = fread(file, 1, sizeof file, stdin);
    uint32_t step = 1;
    uint32_t last = GEVTSOMI_STEPS;
    if (ferror(stdin)) {
        perror("standard input");
        return 1;
    }
    if (argc > 2 || (argc > 1 && !number(argv[1], &step))) {
        fprintf(stderr, "expected the number of a step\n");
        return 2;
    }
    if (argc > 1) {
        last = step;
    }
    /* A step past the end of the run has no reason. */
    for (; step <= last; step++) {
        uint8_t reason = 0;
        uint32_t event = 0;
        uint8_t refusal = gevtsomi_why(file, read, step, &reason, &event);
        if (refusal != GEVTSOMI_DONE) {
            fprintf(stderr, "refused, %d\n", refusal);
            return 1;
        }
        if (reason != 0 || argc > 1) {
            print(step, reason, event);
        }
    }
    if (fflush(stdout) != 0) {
        perror("standard output");
        return 1;
    }
    return 0;
}
