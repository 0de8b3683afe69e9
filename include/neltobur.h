/* Neltobur for C: link the static library of the crate messages_c, which
 * examples/run.sh puts at target/staticlib/libmessages.a. */
#ifndef NELTOBUR_H
#define NELTOBUR_H

#include <stddef.h>
#include <stdint.h>

#ifdef __cplusplus
extern "C" {
#endif

/* What neltobur_message_kind answers where it tells no kind. */
#define NELTOBUR_EMPTY 101      /* a message of no byte */
#define NELTOBUR_NO_KIND 102    /* the first byte is no kind */
#define NELTOBUR_BAD_LENGTH 104 /* too short or too long for its kind */

/* The kind of a message, 1 to 10, if it has the length of its kind:
 *
 *    1  GetStatus      41 bytes        6  Close          17 bytes
 *    2  RespondStatus  41 bytes        7  UpdateConfirm   9 bytes
 *    3  Update          9 bytes        8  UpdateFail      9 bytes
 *    4  Reset           9 bytes        9  ResetConfirm    9 bytes
 *    5  Row            65 bytes       10  Abort           1 byte
 *
 * Otherwise 100 and the number of the refusal, one of the three above, tried in
 * their order. Only the first byte and the length are looked at: no tag, and not
 * which end the message is for.
 *
 * `message` points to `length` bytes that can be read, and is not null even where
 * `length` is 0. Nothing is written, kept or allocated. */
uint32_t neltobur_message_kind(const uint8_t *message, size_t length);

#ifdef __cplusplus
}
#endif

#endif
