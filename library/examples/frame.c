/* Encodes a GRANT and a BATCH and decodes them again: prints the bytes of each
   frame, then some of the decoded fields. */
#include "gevtsomi.h"

#include <inttypes.h>
#include <stdio.h>

/* Prints the frame of these fields and decodes it. Returns whether both calls
   were done. */
static int there_and_back(const uint8_t head[4], const uint32_t numbers[5], uint64_t value,
                          uint64_t fields[GEVTSOMI_FIELDS])
{
    uint8_t frame[GEVTSOMI_FRAME_BYTES] = {0};
    size_t i;
    if (gevtsomi_encode(head, numbers, value, frame, sizeof frame) != GEVTSOMI_DONE) {
        return 0;
    }
    for (i = 0; i < GEVTSOMI_FRAME_BYTES; i++) {
        printf("%02x%c", frame[i], i + 1 < GEVTSOMI_FRAME_BYTES ? ' ' : '\n');
    }
    return gevtsomi_decode(frame, sizeof frame, fields, GEVTSOMI_FIELDS) == GEVTSOMI_DONE;
}

int main(void)
{
    /* number, volume expiry, epoch, version, object expiry; for client 2 and
       object 5, with a value */
    const uint8_t grant[4] = {GEVTSOMI_GRANT, 2, 5, 1};
    const uint32_t granted[5] = {7, 110, 1, 3, 400};
    /* for client 2 and volume 1: it erases objects 5 and 27 */
    const uint8_t batch[4] = {GEVTSOMI_BATCH, 2, 1, 0};
    const uint32_t noted[5] = {8, 0, 1, UINT32_C(1) << 5 | UINT32_C(1) << 27, 0};
    uint64_t fields[GEVTSOMI_FIELDS] = {0};
    if (!there_and_back(grant, granted, 1234567890123, fields)) {
        return 1;
    }
    printf("client %" PRIu64 " object %" PRIu64 " version %" PRIu64 " value %" PRIu64 "\n",
           fields[GEVTSOMI_CLIENT], fields[GEVTSOMI_ITEM], fields[GEVTSOMI_OBJECT_VERSION],
           fields[GEVTSOMI_VALUE]);
    if (!there_and_back(batch, noted, 0, fields)) {
        return 1;
    }
    printf("client %" PRIu64 " volume %" PRIu64 " objects %08" PRIx64 "\n", fields[GEVTSOMI_CLIENT],
           fields[GEVTSOMI_ITEM], fields[GEVTSOMI_OBJECT_VERSION]);
    return 0;
}
