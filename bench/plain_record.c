/* Records of desk.h: part of plain.c, which includes it.
 *
 * The image is checked once, by `begin`: no event 0 to 16 is refused after it. An accepted event is one group, so that the events of a
 * record are its bytes from a place on.
 */

enum { BAD_RECORD = 16, OTHER_FORM = 17 };
enum { FORM_1 = 1 };

/* How many groups a number has. */
INLINE size_t groups(size_t number)
{
    return number < 128 ? 1 : number < 16384 ? 2 : 3;
}

uint32_t handset_record(const uint8_t *events, size_t events_len, uint8_t *room, size_t room_len)
{
    size_t count = groups(events_len);

    if (events_len > HANDSET_MAX_EVENTS) return HANDSET_REFUSED + BAD_RECORD;
    for (size_t i = 0; i < events_len; i++)
        if (events[i] > HANDSET_SECOND) return HANDSET_REFUSED + BAD_EVENT;
    if (room_len < 1 + count + events_len) return HANDSET_REFUSED + BAD_ROOM;
    room[0] = FORM_1;
    for (size_t k = 0; k < count; k++)
        room[1 + k] = (uint8_t)((events_len >> 7 * (count - 1 - k) & 127) | (k + 1 < count ? 128 : 0));
    memcpy(room + 1 + count, events, events_len);
    return (uint32_t)(1 + count + events_len);
}

/* The number at a place, which goes on to the place after it; false where the rules are broken. */
INLINE bool read_number(const uint8_t *record, size_t record_len, size_t *at, unsigned *number)
{
    const uint8_t *b = record + *at;
    size_t left = record_len - *at;

    if (left < 1 || b[0] == 128) return false;
    if (b[0] < 128) return *number = b[0], *at += 1, true;
    if (left < 2) return false;
    if (b[1] < 128) return *number = (b[0] & 127u) << 7 | b[1], *at += 2, true;
    if (left < 3 || b[2] >= 128 || b[0] > 131) return false;
    return *number = (b[0] & 127u) << 14 | (b[1] & 127u) << 7 | b[2], *at += 3, true;
}

/* The refusal of a record, 0 for none, and where its events begin. */
static unsigned check_record(const uint8_t *record, size_t record_len, size_t *start)
{
    unsigned form, count, event;
    size_t at = 0;
    bool known = true;

    if (!read_number(record, record_len, &at, &form)) return BAD_RECORD;
    if (form != FORM_1) return OTHER_FORM;
    if (!read_number(record, record_len, &at, &count)) return BAD_RECORD;
    *start = at;
    for (unsigned i = 0; i < count; i++) {
        if (!read_number(record, record_len, &at, &event)) return BAD_RECORD;
        known &= event <= HANDSET_SECOND;
    }
    if (at != record_len) return BAD_RECORD;
    return known ? 0 : BAD_EVENT;
}

uint32_t handset_play(const uint8_t *image, size_t image_len, uint8_t *sheet, size_t sheet_len, uint32_t columns, uint32_t lines,
                      const uint8_t *record, size_t record_len, uint32_t *answers, size_t answers_count, uint8_t *session,
                      size_t session_len)
{
    struct session s;
    struct here here;
    size_t start = 0, count;
    uint32_t refusal = check_record(record, record_len, &start);

    count = record_len - start;
    if (!refusal && answers_count < count) refusal = BAD_ROOM;
    if (refusal) {
        if (session_len == HANDSET_SESSION_BYTES) session[offsetof(struct session, depth)] = 0; /* closed */
        return HANDSET_REFUSED + refusal;
    }
    refusal = begin(image, image_len, sheet, sheet_len, columns, lines, session, session_len, &s);
    if (refusal) return HANDSET_REFUSED + refusal;
    for (size_t i = 0; i < count; i++) {
        fits(image, &s, &here); /* where the cursor line is */
        answers[i] = step(image, sheet, &s, &here, record[start + i]);
    }
    memcpy(session, &s, sizeof s);
    return (uint32_t)count;
}
