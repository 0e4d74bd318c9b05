/*
 * The lease system of documents 01 and 02 for C and C++. It lists whole runs,
 * tells why a read was answered "ask first", writes run files from their parts
 * or from a seed, and converts messages to and from frames.
 *
 * The work is done by the proved code in libgevtsomi.a. It allocates nothing,
 * does no input or output and keeps nothing from call to call, so threads may
 * call it at the same time. It needs only memcpy, memmove and memset from its
 * host.
 *
 * Each call returns 0, or the number of the question in documents 01 and 02
 * that was answered "no". A refused call changes nothing that it was lent.
 *
 * The proofs hold for a caller that
 * - lends with each address as many elements as the length after it or the
 *   array's type says: readable, writable unless const, and initialized, even
 *   in an output;
 * - lends no null address, even with length 0, and no address that is not
 *   aligned for its type;
 * - lends no output that overlaps another output or an input of the call;
 * - lets nobody else write what is lent, or read an output, until the call
 *   returns;
 * - has enough stack left: GEVTSOMI_LIST_STACK_BYTES for gevtsomi_list,
 *   GEVTSOMI_WHY_STACK_BYTES for gevtsomi_why, GEVTSOMI_WRITE_STACK_BYTES for
 *   gevtsomi_write and gevtsomi_workload, 4,096 bytes for the others.
 */
#ifndef GEVTSOMI_H
#define GEVTSOMI_H

#include <stddef.h>
#include <stdint.h>

#ifdef __cplusplus
extern "C" {
#endif

/* The version of this library. The second number grows when callers or files
   have to change, and CHANGES.md in the repository says how; else the third. */
#define GEVTSOMI_VERSION "0.8.0"
#define GEVTSOMI_VERSION_MAJOR 0
#define GEVTSOMI_VERSION_MINOR 8
#define GEVTSOMI_VERSION_PATCH 0

/* What a call returns when it is not refused. */
#define GEVTSOMI_DONE 0
/* Not a setup, or one out of range; also one from before version 0.6.0, whose
   delay is 0. */
#define GEVTSOMI_BAD_SETUP 7
/* Not a frame, or fields that no message has; or an output that is too short
   for the frame, the fields or the listing. */
#define GEVTSOMI_NO_FRAME_OR_ROOM 8
/* Not a run file; also one from before version 0.6.0, whose delay is 0. */
#define GEVTSOMI_NO_RUN_FILE 9
/* No run file has these parts, or the output is too short for the file. */
#define GEVTSOMI_NOT_WRITTEN 10
/* In a listing: a step with a name above 3, or a return to a name that was never
   saved. No call returns it. */
#define GEVTSOMI_NO_SAVED_STATE 11

/* The most bytes that a run file can have, bytes enough for the listing of any
   run file, and the most stack that the calls need. */
#define GEVTSOMI_FILE_BYTES 65536
#define GEVTSOMI_LISTING_BYTES 112640
#define GEVTSOMI_LIST_STACK_BYTES 221184
#define GEVTSOMI_WHY_STACK_BYTES 106496
#define GEVTSOMI_WRITE_STACK_BYTES 278528

/* The lengths of a setup and a step in a run file, the most objects of a setup,
   and the most steps in a file. Numbers of more than a byte are little endian.
   A setup has, from byte

    0  clients, 1 to 16
    1  volumes, 1 to 8
    2  objects, 1 to 28
    3  0
    4  how many ticks a volume lease lasts, 1 to 3,600, in 4 bytes
    8  how many ticks an object lease lasts, 1 to 1,000,000, in 4
   12  how many ticks a write waits for messages at least, 1 to 60, in 4
   16  the volume of each object, 0 past the object count, in 28
   44  delay: how many ticks after the end of a client's volume lease the server
       keeps notes for it before it marks it unreachable, 1 to 65,535, in 4

   and a step, with 0 in the fields that its kind does not use,

    0  kind: 1 clock, 2 read, 3 ask, 4 write, 5 deliver, 6 lose, 7 double,
       8 restart of the server, 9 restart of a client, 10 save, 11 return to
       what was saved; a step of any other kind may have anything in the other
       fields
    1  client, for kinds 2, 3 and 9
    2  object, for kinds 2, 3 and 4
    3  place in the message list, for kinds 5, 6 and 7; name of the saved
       state, 0 to 3, for kinds 10 and 11
    4  clock, for kind 1, in 4 bytes
    8  value, for kind 4, in 8 */
#define GEVTSOMI_SETUP_BYTES 48
#define GEVTSOMI_STEP_BYTES 16
#define GEVTSOMI_OBJECTS 28
#define GEVTSOMI_STEPS 4000

/* Why a read was answered "ask first": what happened last to the client's copy
   of the object (its leases are dropped on an OFFER or a BATCH) or, after a
   grant, which of the two leases ran out first, the volume lease if both did at
   once. */
enum gevtsomi_reason {
    GEVTSOMI_NEVER_GRANTED = 1,
    GEVTSOMI_COPY_INVALIDATED,
    GEVTSOMI_LEASES_DROPPED,
    GEVTSOMI_CLIENT_RESTARTED,
    GEVTSOMI_VOLUME_LEASE_RAN_OUT,
    GEVTSOMI_OBJECT_LEASE_RAN_OUT
};

/* The length of a frame. */
#define GEVTSOMI_FRAME_BYTES 32

enum gevtsomi_kind {
    GEVTSOMI_RENEW = 1,
    GEVTSOMI_GRANT,
    GEVTSOMI_INVALIDATE,
    GEVTSOMI_ACK,
    GEVTSOMI_OFFER,
    GEVTSOMI_DROPPED,
    GEVTSOMI_BATCH,
    GEVTSOMI_CLEARED
};

/* A frame's fields, in its order. Every kind has kind and client; of the others

   RENEW              has item, number, epoch and version
   GRANT              has all; the value is 0 if none is present
   INVALIDATE, ACK    have item, epoch and version
   OFFER, DROPPED     have item, number and epoch
   BATCH, CLEARED     have item, number, epoch and, in the version, a set of
                      objects, bit k for object k, any 32 bits

   and the rest is 0. The item is the volume of an OFFER, a DROPPED, a BATCH or
   a CLEARED, and the object of any other kind. */
enum gevtsomi_field {
    GEVTSOMI_KIND,
    GEVTSOMI_CLIENT,
    GEVTSOMI_ITEM,
    GEVTSOMI_VALUE_PRESENT,
    GEVTSOMI_NUMBER,
    GEVTSOMI_VOLUME_EXPIRY,
    GEVTSOMI_EPOCH,
    GEVTSOMI_OBJECT_VERSION,
    GEVTSOMI_OBJECT_EXPIRY,
    GEVTSOMI_VALUE,
    GEVTSOMI_FIELDS
};

/* Writes the listing of a run file to the start of output, and its length to
   written. Returns 9 if the bytes are not a run file, whatever the length of
   output; else 8 if output is shorter than the listing. */
uint8_t gevtsomi_list(const uint8_t *file, size_t file_len, uint8_t *output, size_t output_len,
                      size_t *written);

/* Writes to reason why a step of a run file was answered "ask first", and to
   event the step of the event that it comes from: the one that erased the copy
   or dropped its lease or, after a grant, the object's last GRANT; 0 if the
   client was never granted the object. Steps count from 1, as in the listing.
   Only events on the line of steps that led to the read count, not those that a
   return has left behind. Both are 0 for a step that is not a read answered "ask
   first" or not in the run. Returns 9 if the bytes are not a run file. */
uint8_t gevtsomi_why(const uint8_t *file, size_t file_len, uint32_t step, uint8_t *reason,
                     uint32_t *event);

/* Writes the run file of this note, setup and these step records, one after
   the other, to the start of output, and its length to written. It is the only
   file with this note that has these parts. The bytes of output past the file
   do not change. Returns 7 if the setup is not 48 bytes long, its fourth byte
   is not 0 or a field is out of range; then 10 if the length of the records is
   not a multiple of 16, there are more than 4,000 steps, a step of a known kind
   has an unused field that is not 0, the file would be longer than
   GEVTSOMI_FILE_BYTES, or output is shorter than the file. */
uint8_t gevtsomi_write(const uint8_t *note, size_t note_len, const uint8_t *setup,
                       size_t setup_len, const uint8_t *records, size_t records_len,
                       uint8_t *output, size_t output_len, size_t *written);

/* Does the same with the first count steps of this seed's workload, which are
   the same every time. Returns 7 as gevtsomi_write does; then 10 if count is
   above 4,000, the file would be longer than GEVTSOMI_FILE_BYTES, or output is
   shorter than the file.

   Choose an odd number of clients or of objects, such as 3 and 4. If 2^e is the
   greatest power of two that divides both counts, then object and
   13 * client + 15 are equal modulo 2^e in every read and ask: with 4 and 4, no
   two clients ask for the same object. A count that is a power of two is gone
   through in a fixed order: each of 4 objects is drawn every 4th step, each
   place every 64th.

   Hardly any lease is granted: the server restarts every 9 steps on average,
   and a delivery hits a given message once in 64 times. So a workload exercises
   the message list, restarts, offers and refusals. */
uint8_t gevtsomi_workload(uint32_t seed, const uint8_t *note, size_t note_len,
                          const uint8_t *setup, size_t setup_len, uint32_t count, uint8_t *output,
                          size_t output_len, size_t *written);

/* Writes the frame of these fields to the first 32 bytes of output. head has
   the fields from kind to value present, numbers those from number to object
   expiry. Returns 8 if no message has these fields, or output is shorter than a
   frame. */
uint8_t gevtsomi_encode(const uint8_t head[4], const uint32_t numbers[5], uint64_t value,
                        uint8_t *output, size_t output_len);

/* Writes the fields of a frame to the first GEVTSOMI_FIELDS elements of fields.
   Returns 8 if the bytes are not a frame, or fields has fewer elements. */
uint8_t gevtsomi_decode(const uint8_t *frame, size_t frame_len, uint64_t *fields,
                        size_t fields_len);

#ifdef __cplusplus
}
#endif

#endif
