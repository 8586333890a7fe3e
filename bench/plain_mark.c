/* The marker of desk.h: part of plain.c, which includes it.
 *
 * A bit for each sheet byte says that a one-byte field is there that no question has named; its first question clears it, so a key
 * is passed over once. Defaults stand beside the bits and are read only where a bit was set, so only the bits are cleared at first.
 */

enum { BAD_KEY = 15, BAD_ROOM = 25 };
enum { PLACE, RIGHT, POINTS, NUMBERS }; /* a question's numbers in the key */
enum { BYTE_MOST = 255, POINTS_MOST = 255 };

struct open_fields {
    uint64_t bits[SHEET_MOST / 64];
    uint8_t preset[SHEET_MOST];
};

/* The one-byte fields among those that check_and_list listed. */
static void enter_fields(struct open_fields *open, const uint8_t *image, const uint16_t *list, unsigned first)
{
    memset(open->bits, 0, sizeof open->bits);
    for (unsigned i = first; i < FIELDS_MOST; i++) {
        const uint8_t *component = image + list[i];
        const struct form *form = &forms[component[0] & CODE_BITS];
        size_t var;

        if (form->bytes != 1) continue;
        var = get16(component + VAR);
        open->bits[var / 64] |= UINT64_C(1) << var % 64;
        open->preset[var] = component[form->preset];
    }
}

/* Closes the field at a place; false if none is open there. */
INLINE bool close_field(struct open_fields *open, size_t place)
{
    uint64_t bit = UINT64_C(1) << place % 64;

    if (place >= SHEET_MOST || !(open->bits[place / 64] & bit)) return false;
    open->bits[place / 64] ^= bit;
    return true;
}

/* Adds up the points of a key without a part of a question; false at the first question that does not fit. */
static bool add_points(struct open_fields *open, const uint8_t *sheet, const uint16_t *key, size_t count, uint32_t *sums)
{
    uint32_t all = 0, right = 0, blank = 0;

    for (const uint16_t *q = key, *end = key + count; q != end; q += NUMBERS) {
        unsigned preset, byte;

        if (!close_field(open, q[PLACE])) return false;
        preset = open->preset[q[PLACE]];
        if (q[RIGHT] > BYTE_MOST || q[RIGHT] == preset || q[POINTS] > POINTS_MOST) return false;
        byte = sheet[q[PLACE]];
        all += q[POINTS];
        blank += byte == preset ? q[POINTS] : 0;
        right += byte == q[RIGHT] ? q[POINTS] : 0; /* which is not the default, so not blank too */
    }
    sums[0] = right;
    sums[1] = all - right - blank;
    sums[2] = blank;
    return true;
}

uint32_t handset_mark(const uint8_t *image, size_t image_len, const uint8_t *sheet, size_t sheet_len, const uint16_t *key,
                      size_t key_count, uint32_t *sums, size_t sums_count)
{
    uint16_t list[FIELDS_MOST];
    struct open_fields open;
    uint32_t found[HANDSET_SUMS];
    unsigned first;
    unsigned refusal = check_and_list(image, image_len, sheet_len, list, &first);

    if (refusal) return HANDSET_REFUSED + refusal;
    if (key_count % NUMBERS != 0) return HANDSET_REFUSED + BAD_KEY;
    enter_fields(&open, image, list, first);
    if (!add_points(&open, sheet, key, key_count, found)) return HANDSET_REFUSED + BAD_KEY;
    if (sums_count != HANDSET_SUMS) return HANDSET_REFUSED + BAD_ROOM;
    memcpy(sums, found, sizeof found);
    return 0;
}
