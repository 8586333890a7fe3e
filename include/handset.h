/* The menu executor for C: four calls over an image, a sheet and a session that the caller keeps.
 *
 * The library is target/staticlib/libbinding.a (`tools/library` builds it). It keeps no memory between calls and asks for none. A buffer
 * is a pointer and a length; size_t has 64 bits. The buffers of one call must not overlap where one of them is written, and no pointer may be
 * null, even where the length is 0.
 *
 * A refusal alters no byte of sheet, session or picture; only handset_open, when refused, writes a closed session, which never
 * fits. A session is HANDSET_SESSION_BYTES bytes. Bytes of another length are a session that does not fit: refusal 12, after 2
 * to 11 (and after 1 in handset_open, which then alters nothing). Columns, lines and events are whole numbers: none is cut to a byte,
 * so 270 columns are refusal 1 and event 272 is refusal 13.
 */
#ifndef HANDSET_H
#define HANDSET_H

#include <stddef.h>
#include <stdint.h>

#ifdef __cplusplus
extern "C" {
#endif

#define HANDSET_SESSION_BYTES 230

/* Events: 0 to 9 are the digits. */
#define HANDSET_POINT 10
#define HANDSET_UP 11
#define HANDSET_DOWN 12
#define HANDSET_LEFT 13
#define HANDSET_RIGHT 14
#define HANDSET_ENTER 15
#define HANDSET_SECOND 16

/* Answers. A refused call answers HANDSET_REFUSED (the option text: HANDSET_TEXT_REFUSED) + the refusal's number. */
#define HANDSET_TAKEN 0
#define HANDSET_FLASH 1
#define HANDSET_FINISHED 65536
#define HANDSET_FIRED 131072
#define HANDSET_CURSOR 65536
#define HANDSET_REFUSED 16777216
#define HANDSET_TEXT_REFUSED UINT64_C(4294967296)

/* Checks image and sheet, writes each field's default to the sheet and a session to `session`: the top table at its first line.
 * 0, or a refusal: 1 for the shape, 2 to 11, 12 for a session buffer of the wrong length. */
uint32_t handset_open(const uint8_t *image, size_t image_len, uint8_t *sheet, size_t sheet_len, uint32_t columns, uint32_t lines,
                      uint8_t *session, size_t session_len);

/* Takes an event: the next session stands in `session`, and the sheet changes where a visit is finished.
 * HANDSET_TAKEN, HANDSET_FLASH, HANDSET_FINISHED or HANDSET_FIRED + the image place of the component, or a refusal: 2 to 13. */
uint32_t handset_event(const uint8_t *image, size_t image_len, uint8_t *sheet, size_t sheet_len, uint8_t *session,
                       size_t session_len, uint32_t event);

/* Fills a picture of columns x lines bytes, row by row.
 * 0 for no edit cursor, HANDSET_CURSOR + 256 * row + column (both from 0), or a refusal: 2 to 12, 1 for the picture's length. */
uint32_t handset_draw(const uint8_t *image, size_t image_len, const uint8_t *sheet, size_t sheet_len, const uint8_t *session,
                      size_t session_len, uint8_t *picture, size_t picture_len);

/* Where an option's item stands in the image: 65,536 * place of its first byte + length, or a refusal: 2 to 11, 14. */
uint64_t handset_option_text(const uint8_t *image, size_t image_len, const uint8_t *sheet, size_t sheet_len, size_t place,
                             size_t item);

#ifdef __cplusplus
}
#endif

#endif
