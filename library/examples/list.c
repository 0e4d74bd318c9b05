/* Prints the listing of the run file on standard input. */
#include "gevtsomi.h"

#include <stdio.h>

/* Not on the stack, which the call needs for itself. The file has room for one
   byte too many, so that an over-long file is refused and not truncated. */
static uint8_t file[GEVTSOMI_FILE_BYTES + 1];
static uint8_t listing[GEVTSOMI_LISTING_BYTES];

int main(void)
{
    size_t read = fread(file, 1, sizeof file, stdin);
    size_t written = 0;
    uint8_t refusal;
    if (ferror(stdin)) {
        perror("standard input");
        return 1;
    }
    refusal = gevtsomi_list(file, read, listing, sizeof listing, &written);
    if (refusal != GEVTSOMI_DONE) {
        fprintf(stderr, "refused, %d\n", refusal);
        return 1;
    }
    if (fwrite(listing, 1, written, stdout) != written || fflush(stdout) != 0) {
        perror("standard output");
        return 1;
    }
    return 0;
}
