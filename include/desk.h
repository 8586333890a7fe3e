/* The desk's calls for C, of the same library as handset.h: target/staticlib/libbinding.a (`tools/library` builds it).
 *
 * What handset.h says of buffers holds here too: a buffer is a pointer and how many it has of what it points to, none may be null, and
 * those of one call must not overlap where one of them is written. An answer below HANDSET_REFUSED is no refusal. A refused call
 * answers HANDSET_REFUSED + the refusal's number and alters no byte, but for the session of handset_play, which is then closed.
 */
#ifndef HANDSET_DESK_H
#define HANDSET_DESK_H

#include "handset.h"

#ifdef __cplusplus
extern "C" {
#endif

/* The sums of handset_mark: points right, wrong and blank. */
#define HANDSET_SUMS 3

/* Marks a sheet by a key. Three of its key_count numbers make a question: where its byte is in the sheet, which byte is right, and what
 * it is worth. A byte that is still its field's default is blank. 0 with the three sums in `sums`, or a refusal: 2 to 11 for image and
 * sheet; 15 for a key that ends inside a question or has one that does not fit (no one-byte field at its place, a place asked before,
 * right byte or points over 255, the default as right byte); 25, found last, where sums_count is not HANDSET_SUMS. */
uint32_t handset_mark(const uint8_t *image, size_t image_len, const uint8_t *sheet, size_t sheet_len, const uint16_t *key,
                      size_t key_count, uint32_t *sums, size_t sums_count);

/* The most events of a record, and the most bytes that handset_record writes. */
#define HANDSET_MAX_EVENTS 65535
#define HANDSET_MAX_RECORD 65539

/* Records a list of events. A record is a row of numbers up to 65,535: the form number, which is 1, how many events there are, and the
 * events. A number is written as its digits to the base 128, highest first, a byte each, without leading zeros; 128 is added to all but
 * the last byte of each number. So an event is its own byte, and events_len + 4 bytes of room are always enough.
 * The record's length, with the record at the start of `room`; the bytes after it are not touched. Or a refusal: 16 for more than
 * HANDSET_MAX_EVENTS events; 13 for an event above HANDSET_SECOND; 25 where `room` is shorter than the record. The first of these that
 * applies is given. */
uint32_t handset_record(const uint8_t *events, size_t events_len, uint8_t *room, size_t room_len);

/* Plays a record: opens the image as handset_open does, and then takes its events as handset_event does, one after another, each with
 * the session and the sheet that the one before left.
 * The number of events, which may be 0, with the session after the last of them in `session`. The first so many entries of `answers`
 * have what handset_event answers for each event, and no refusal is among them; the entries after these are not touched.
 * Or a refusal, the first of these that applies; all of them are found before anything is written:
 *   16  the record does not begin with a number: it is empty, ends inside its first number, or that number begins with the byte 128
 *       (a leading zero), has more than three bytes or is over 65,535
 *   17  the record begins with another number than 1
 *   16  what follows is not a number of events and exactly as many numbers, each written as above
 *   13  one of these numbers is above HANDSET_SECOND
 *   25  `answers` has fewer entries than there are events
 *    1, 2 to 11  as in handset_open
 *   12  session_len is not HANDSET_SESSION_BYTES
 * A refusal alters no byte of sheet and answers. It leaves a closed session, which never fits, in a buffer of HANDSET_SESSION_BYTES, and
 * a buffer of another length as it is. */
uint32_t handset_play(const uint8_t *image, size_t image_len, uint8_t *sheet, size_t sheet_len, uint32_t columns, uint32_t lines,
                      const uint8_t *record, size_t record_len, uint32_t *answers, size_t answers_count, uint8_t *session,
                      size_t session_len);

#ifdef __cplusplus
}
#endif

#endif
