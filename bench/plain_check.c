/* The format's numbers, steps over an image, and the check: part of plain.c, which includes it.
 *
 * The check is one walk. Its usual lines, constant strings and options are taken inline (take_line, take_option); whatever is
 * not taken there goes to check_line and check_component, which hold all rules in the order of their refusals.
 */

#define INLINE static inline __attribute__((always_inline))

/* Refusals, by their numbers. */
enum { BAD_SHAPE = 1, BAD_LENGTH, BAD_ID, BAD_VERSION, BAD_ORDER, BEYOND, BAD_CODE, TOO_MANY, BAD_SETTING, NO_ROOM, SHARED };
enum { NO_FIT = 12, BAD_EVENT, NO_ITEM };

enum { PROLOG = 10, IMAGE_MOST = 32768, SHEET_MOST = 4096 };
enum { DEPTH_MOST = 8, TABLE_LINES = 99, LINES_MOST = 1024, FIELDS_MOST = 256 };
enum { DELAY_TO_TOP = 5, DELAY_PASSWORD = 7 };

/* Bits of a line's tag, and of a component's. */
enum { FIRST_LINE = 0x01, LAST_LINE = 0x02, SUBMENU = 0x08, PROTECTED = 0x10, LINE_BITS = 0x1f };
enum { CODE_BITS = 0x1f, EDIT = 0x20, LAST_COMPONENT = 0x80 };

/* Bytes of a line's tag and options, the password apart: two for each of next, prev, var-addr and submenu. */
static const uint8_t line_size[LINE_BITS + 1] = {
    5, 3, 3, 1, 7, 5, 5, 3, 7, 5, 5, 3, 9, 7, 7, 5, 5, 3, 3, 1, 7, 5, 5, 3, 7, 5, 5, 3, 9, 7, 7, 5,
};

/* Component codes that need a layout of their own. */
enum { SBYTE_DD = 0x03, WORD_DDD = 0x05, SWORD_DDD = 0x09, COUNTER = 0x0d };
enum { TIME_LONG = 0x0f, TIME_SHORT, DATE_LONG, DATE_SHORT, SWITCH, OPTION, STRING, PASSWORD, TRIGGER };

/* Where the parts of a component stand. */
enum { VAR = 4, COUNTER_MIN = 6, COUNTER_MAX = 8, COUNTER_STEP = 10, COUNTER_WIDTH = 14 };
enum { LENGTH = 6, ITEMS = 7, OPTION_WIDTH = 8, OPTION_DEFAULT = 9, OPTION_STRINGS = 10 }; /* switch and option */

/* Bytes of a component in the image, its strings apart; a code that section 7 doesn't give has its tag only. */
static const uint8_t component_size[CODE_BITS + 1] = {
    7, 7, 7, 7, 7, 8, 8, 8, 8, 8, 8, 10, 10, 15, 23, 9, 8, 10, 9, 14, 10, 2, 5, 4, 1, 1, 1, 1, 1, 1, 1, 1,
};

enum kind { NO_FIELD, INTEGER, COUNTING, PARTS, SWITCHING, CHOOSING, FIRING };

struct form {
    uint8_t kind;
    uint8_t bytes;  /* in the sheet */
    uint8_t preset; /* where its default stands */
    uint8_t cells;  /* shown, where the code settles it */
    uint8_t base;
    bool sign;
    int32_t low, high; /* an integer's range */
};

static const struct form forms[CODE_BITS + 1] = {
    [0x00] = {INTEGER, 1, 6, 2, 10, false, 0, 99},
    [0x01] = {INTEGER, 1, 6, 3, 10, false, 0, 255},
    [0x02] = {INTEGER, 1, 6, 2, 16, false, 0, 255},
    [0x03] = {INTEGER, 1, 6, 3, 10, true, -99, 99},
    [0x04] = {INTEGER, 1, 6, 4, 10, true, -128, 127},
    [0x05] = {INTEGER, 2, 6, 3, 10, false, 0, 999},
    [0x06] = {INTEGER, 2, 6, 4, 10, false, 0, 9999},
    [0x07] = {INTEGER, 2, 6, 5, 10, false, 0, 65535},
    [0x08] = {INTEGER, 2, 6, 4, 16, false, 0, 65535},
    [0x09] = {INTEGER, 2, 6, 4, 10, true, -999, 999},
    [0x0a] = {INTEGER, 2, 6, 5, 10, true, -9999, 9999},
    [COUNTER] = {.kind = COUNTING, .bytes = 2, .preset = 12},
    [TIME_LONG] = {.kind = PARTS, .bytes = 3, .preset = 6, .cells = 8},
    [TIME_SHORT] = {.kind = PARTS, .bytes = 2, .preset = 6, .cells = 5},
    [DATE_LONG] = {.kind = PARTS, .bytes = 4, .preset = 6, .cells = 10},
    [DATE_SHORT] = {.kind = PARTS, .bytes = 3, .preset = 6, .cells = 8},
    [SWITCH] = {.kind = SWITCHING, .bytes = 4, .preset = 10},
    [OPTION] = {.kind = CHOOSING, .bytes = 1, .preset = OPTION_DEFAULT},
    [TRIGGER] = {.kind = FIRING, .cells = 3},
};

/* Times and dates: their parts in the order shown. */
enum { YEAR, MONTH, DAY }; /* of a date */

struct part {
    uint16_t low, high;
    uint8_t cell, digits;
};

static const struct part parts_of[4][3] = {
    {{0, 23, 0, 2}, {0, 59, 3, 2}, {0, 59, 6, 2}},
    {{0, 23, 0, 2}, {0, 59, 3, 2}, {0, 0, 0, 0}},
    {{0, 9999, 0, 4}, {1, 12, 5, 2}, {1, 31, 8, 2}},
    {{0, 99, 0, 2}, {1, 12, 3, 2}, {1, 31, 6, 2}},
};

INLINE const struct part *parts_for(unsigned code) { return parts_of[code - TIME_LONG]; }
INLINE unsigned part_count(unsigned code) { return code == TIME_SHORT ? 2 : 3; }

INLINE uint16_t get16(const uint8_t *p) { return (uint16_t)(p[0] | p[1] << 8); }
INLINE uint32_t get32(const uint8_t *p) { return p[0] | p[1] << 8 | p[2] << 16 | (uint32_t)p[3] << 24; }

INLINE void put16(uint8_t *p, uint32_t v)
{
    p[0] = (uint8_t)v;
    p[1] = (uint8_t)(v >> 8);
}

INLINE bool in_range(int32_t value, int32_t low, int32_t high) { return value >= low && value <= high; }
INLINE bool is_digit(uint8_t c) { return (uint8_t)(c - '0') <= 9; }

/* ---- Ranges ---- */

static int32_t integer_value(unsigned code, const uint8_t *bytes)
{
    if (code < SBYTE_DD) return bytes[0];
    if (code < WORD_DDD) return (int8_t)bytes[0];
    return code < SWORD_DDD ? get16(bytes) : (int16_t)get16(bytes);
}

static unsigned counter_cells(int32_t value)
{
    unsigned cells = 1;

    if (value < 0) value = -value, cells++;
    return cells + (value > 9) + (value > 99) + (value > 999) + (value > 9999);
}

INLINE bool counts(const uint8_t *component, int32_t value)
{
    return in_range(value, (int16_t)get16(component + COUNTER_MIN), (int16_t)get16(component + COUNTER_MAX));
}

/* The Gregorian rule. A short year needs no 2000 added: it is leap exactly when 2000 plus it is. */
INLINE bool is_leap(unsigned year) { return year % 4 == 0 && (year % 100 != 0 || year % 400 == 0); }

INLINE unsigned days_in_month(unsigned year, unsigned month)
{
    static const uint8_t days[12] = {31, 28, 31, 30, 31, 30, 31, 31, 30, 31, 30, 31};

    return month == 2 && is_leap(year) ? 29 : days[month - 1];
}

/* Bytes of a time or date. A date is stored day, month, year. */
static bool parts_ok(const uint8_t *p, unsigned code)
{
    unsigned year;

    if (code <= TIME_SHORT) return p[0] <= 23 && p[1] <= 59 && (code == TIME_SHORT || p[2] <= 59);
    year = code == DATE_LONG ? get16(p + 2) : p[2];
    return year <= parts_for(code)[YEAR].high && p[1] - 1u <= 11 && p[0] - 1u < days_in_month(year, p[1]);
}

/* The most that a part may be while it is edited: a day goes to the month's end. */
static unsigned part_most(unsigned code, unsigned cell, const uint16_t *parts)
{
    if (code >= DATE_LONG && cell == DAY) return days_in_month(parts[YEAR], parts[MONTH]);
    return parts_for(code)[cell].high;
}

/* Bits at or above the stated count, 1 to 32, are 0. */
INLINE bool switch_ok(uint32_t bits, unsigned count) { return (uint64_t)bits >> count == 0; }

/* ---- Steps over a checked image ---- */

INLINE size_t first_line(const uint8_t *image, size_t table) { return (table + 1 + image[table]) | 1; }
INLINE size_t next_line(const uint8_t *image, size_t line) { return line + get16(image + line + 1); }

INLINE size_t submenu_of(const uint8_t *image, size_t line)
{
    return PROLOG + get16(image + line + line_size[image[line]] - 2);
}

/* A protected line's password, as a string. */
INLINE const uint8_t *password_of(const uint8_t *image, size_t line) { return image + line + line_size[image[line]]; }

INLINE size_t first_component(const uint8_t *image, size_t line)
{
    unsigned tag = image[line];
    size_t at = line + line_size[tag]; /* even, as the line is odd and its options are pairs */

    return tag & PROTECTED ? (at + 2 + image[at]) & ~(size_t)1 : at;
}

INLINE size_t next_component(const uint8_t *image, size_t place)
{
    const uint8_t *component = image + place;
    unsigned code = component[0] & CODE_BITS;
    size_t size = component_size[code];

    if (code == STRING)
        size += component[1];
    else if (code == SWITCH || code == OPTION)
        size = component[LENGTH];
    return (place + size + 1) & ~(size_t)1;
}

/* A trigger is editable whatever its edit bit. */
INLINE bool editable(const uint8_t *component)
{
    return (component[0] & EDIT) || (component[0] & CODE_BITS) == TRIGGER;
}

static const uint8_t *option_item(const uint8_t *component, unsigned item)
{
    const uint8_t *p = component + OPTION_STRINGS;
    while (item--) p += *p + 1;
    return p;
}

/* ---- The check: refusals 2 to 11, in one walk ---- */

struct walk {
    const uint8_t *image;
    size_t len;
    size_t room;    /* sheet bytes that fields may use; none of a sheet over 4,096 */
    bool oversize;  /* the sheet is over 4,096 bytes */
    uint16_t *list; /* the places of the fields reached, from its end down; NULL if not wanted */
    int fields_left;
    int lines_left;               /* lines that may follow in this table: */
    int table_spare, image_spare; /* what its table's 99 and the image's 1,024 leave beyond them */
    unsigned refusal;
    uint64_t taken[SHEET_MOST / 64]; /* a bit for each sheet byte: some field's */
};

INLINE size_t refuse(struct walk *w, unsigned refusal)
{
    w->refusal = refusal;
    return 0;
}

/* For a component with a fault that is no setting: 6 if it runs beyond the image, else 7. */
static unsigned layout_fault(const uint8_t *image, size_t len, size_t place)
{
    unsigned code, strings = 0;
    size_t end;

    if (place >= len) return BEYOND;
    code = image[place] & CODE_BITS;
    end = place + component_size[code];
    if (code == STRING || code == PASSWORD) end--, strings = 1;
    if (code == STRING && (image[place] & EDIT)) end += 5; /* a variable string: update, call-addr, var-addr */
    if (end > len) return BEYOND;
    if (code == SWITCH || code == OPTION) strings = image[place + ITEMS];
    for (; strings; strings--) {
        if (end >= len) return BEYOND;
        end += 1u + image[end];
    }
    return end > len ? BEYOND : BAD_CODE;
}

/* Do the strings of a switch or option, as many as it states, end where its length byte says, with an option's width? */
INLINE bool strings_fill(const struct walk *w, size_t place, unsigned code)
{
    const uint8_t *component = w->image + place;
    const uint8_t *string = component + component_size[code], *end = component + component[LENGTH];
    size_t items = component[ITEMS], longest = 0;

    if (place + component[LENGTH] > w->len) return false;
    while (string < end) {
        size_t n = *string;
        string += n + 1;
        items--;
        if (n > longest) longest = n;
    }
    return string == end && items == 0 && (code == SWITCH || longest == component[OPTION_WIDTH]);
}

/* Claims a field's sheet bytes: 0, or refusal 10 or 11. */
INLINE unsigned claim(struct walk *w, const uint8_t *component, unsigned bytes)
{
    size_t var = get16(component + VAR);
    uint64_t mask = (UINT64_C(1) << bytes) - 1;
    uint64_t low = mask << (var % 64);
    uint64_t *word;

    if (var + bytes > w->room) return NO_ROOM;
    word = &w->taken[var / 64];
    if (*word & low) return SHARED;
    if (var % 64 + bytes > 64) { /* the field goes on in the next word */
        uint64_t high = mask >> (64 - var % 64);
        if (word[1] & high) return SHARED;
        word[1] |= high;
    }
    *word |= low;
    return 0;
}

static bool counter_ok(const uint8_t *c)
{
    return counts(c, (int16_t)get16(c + forms[COUNTER].preset)) && (int16_t)get16(c + COUNTER_STEP) >= 1 &&
           counter_cells((int16_t)get16(c + COUNTER_MIN)) <= c[COUNTER_WIDTH] &&
           counter_cells((int16_t)get16(c + COUNTER_MAX)) <= c[COUNTER_WIDTH];
}

/* The settings of a field that is laid out well. */
INLINE bool settings_ok(const uint8_t *component, unsigned code)
{
    const uint8_t *preset = component + forms[code].preset;

    switch (forms[code].kind) {
    case INTEGER: return in_range(integer_value(code, preset), forms[code].low, forms[code].high);
    case COUNTING: return counter_ok(component);
    case PARTS: return parts_ok(preset, code);
    case SWITCHING: return component[ITEMS] - 1u <= 31 && switch_ok(get32(preset), component[ITEMS]);
    case CHOOSING: return *preset < component[ITEMS]; /* so there is an item */
    default: return true;
    }
}

/* Checks the component at `place`, which is in the image: its end, or 0 where it is refused. */
static size_t check_component(struct walk *w, size_t place)
{
    const uint8_t *component = w->image + place;
    unsigned code = component[0] & CODE_BITS, claimed;
    size_t end = place + component_size[code];

    if ((component[0] & (CODE_BITS | EDIT)) == STRING)
        return end > w->len || end + component[1] > w->len ? refuse(w, BEYOND) : end + component[1];
    if (end > w->len || forms[code].kind == NO_FIELD) return refuse(w, layout_fault(w->image, w->len, place));
    if (code == SWITCH || code == OPTION) {
        if (!strings_fill(w, place, code)) return refuse(w, layout_fault(w->image, w->len, place));
        end = place + component[LENGTH];
    }
    if (--w->fields_left < 0) return refuse(w, TOO_MANY);
    if (w->list) w->list[w->fields_left] = (uint16_t)place;
    if (!settings_ok(component, code)) return refuse(w, BAD_SETTING);
    if (code == TRIGGER) return w->oversize ? refuse(w, NO_ROOM) : end;
    claimed = claim(w, component, forms[code].bytes);
    return claimed ? refuse(w, claimed) : end;
}

/* Takes an option without fault, whose fixed bytes and one more are in the image; check_component settles any other. */
INLINE bool take_option(struct walk *w, size_t place, bool listing, size_t *end)
{
    const uint8_t *component = w->image + place;
    const uint8_t *string = component + OPTION_STRINGS, *past = component + component[LENGTH];
    size_t items = component[ITEMS], longest = 0;

    *end = place + component[LENGTH];
    if (*end > w->len || component[OPTION_DEFAULT] >= items) return false;
    do {
        size_t n = *string;
        string += n + 1;
        items--;
        if (n > longest) longest = n;
    } while (string < past);
    if (string != past || items != 0 || longest != component[OPTION_WIDTH]) return false;
    if (w->fields_left == 0 || claim(w, component, 1) != 0) return false;
    w->fields_left--;
    if (listing) w->list[w->fields_left] = (uint16_t)place;
    return true;
}

/* Checks a line's components, from `at` to the end of the last; false where one is refused. */
INLINE bool check_components(struct walk *w, size_t at, bool listing, size_t *end)
{
    const uint8_t *image = w->image;
    size_t len = w->len, tag;

    do {
        if (at & 1) { /* padding */
            if (at >= len || image[at] != 0) return refuse(w, layout_fault(image, len, at + 1));
            at++;
        }
        if (at + OPTION_STRINGS < len) { /* but near the image's end: the most frequent ones at once */
            tag = image[at];
            if ((tag & (CODE_BITS | EDIT)) == STRING) {
                at += 2 + (size_t)image[at + 1];
                if (at > len) return refuse(w, BEYOND);
                continue;
            }
            if ((tag & CODE_BITS) == OPTION && take_option(w, at, listing, end)) {
                at = *end;
                continue;
            }
        } else {
            if (at >= len) return refuse(w, BEYOND);
            tag = image[at];
        }
        at = check_component(w, at);
        if (at == 0) return false;
    } while (!(tag & LAST_COMPONENT));
    *end = at;
    return true;
}

static bool password_ok(const uint8_t *password)
{
    if (password[0] - 1u > 7) return false;
    for (unsigned i = 1; i <= password[0]; i++)
        if (!is_digit(password[i])) return false;
    return true;
}

/* Checks a line's tag and options at `line`; what stands before it ended at `at`. `offset` is its distance from the line before
 * it in its table, 0 for the first. The end of its options, or 0 where they are refused. */
static size_t check_line(struct walk *w, size_t at, size_t line, size_t offset)
{
    const uint8_t *image = w->image;
    const uint8_t *password = NULL;
    unsigned tag;
    size_t end;

    if (line >= w->len) return refuse(w, BEYOND);
    tag = image[line];
    if (tag > LINE_BITS) return refuse(w, BAD_CODE);
    end = line + line_size[tag];
    if (end > w->len) return refuse(w, BEYOND);
    if (tag & PROTECTED) {
        if (!(tag & SUBMENU)) return refuse(w, BAD_CODE);
        if (end >= w->len) return refuse(w, BEYOND);
        password = image + end;
        end += 1u + *password;
        if (end > w->len) return refuse(w, BEYOND);
    }
    if (line != (at | 1) || (line != at && image[at] != 0)) return refuse(w, BAD_CODE);
    if (offset == 0 ? !(tag & FIRST_LINE) : (tag & FIRST_LINE) || get16(image + line + 3 - (tag & LAST_LINE)) != offset)
        return refuse(w, BAD_CODE);
    if (--w->lines_left < 0) return refuse(w, TOO_MANY);
    if (password && !password_ok(password)) return refuse(w, BAD_SETTING);
    return end;
}

/* Takes a line without fault that has no mark but the last one; check_line settles any other. */
INLINE bool take_line(struct walk *w, size_t at, size_t line, size_t offset, size_t *end)
{
    const uint8_t *image = w->image;
    size_t tag;

    if (line >= w->len) return false;
    tag = image[line];
    if (tag & ~(size_t)LAST_LINE) return false;
    *end = line + 5 - tag; /* next-line-ofs but at the last line, prev-line-ofs */
    if (*end > w->len) return false;
    if (at & 1 ? line != at : line != at + 1 || image[at] != 0) return false;
    return get16(image + *end - 2) == offset && --w->lines_left >= 0;
}

INLINE void allow_lines(struct walk *w, int in_table, int in_image)
{
    w->lines_left = in_table < in_image ? in_table : in_image;
    w->table_spare = in_table - w->lines_left;
    w->image_spare = in_image - w->lines_left;
}

/* Walks all tables from the top one: depth first, lines in order, a line's components before its submenu. */
INLINE unsigned check_tables(struct walk *w, bool listing)
{
    struct {
        size_t line, end;
        int lines_left; /* of its table's 99 */
    } above[DEPTH_MOST];
    const uint8_t *image = w->image;
    size_t table = PROLOG, line, at, offset, end;
    unsigned depth = 0;

    for (;;) {
        if (table >= w->len) return BEYOND;
        at = table + 1 + image[table];
        if (at > w->len) return BEYOND;
        if (depth == DEPTH_MOST) return TOO_MANY;
        allow_lines(w, TABLE_LINES, w->lines_left + w->image_spare);
        line = at | 1;
        end = check_line(w, at, line, 0);
        if (end == 0) return w->refusal;
        for (;;) {
            if (!check_components(w, end, listing, &at)) return w->refusal;
            if (image[line] & (SUBMENU | LAST_LINE)) {
                if (image[line] & SUBMENU) {
                    above[depth].line = line;
                    above[depth].end = at;
                    above[depth].lines_left = w->lines_left + w->table_spare;
                    depth++;
                    table = submenu_of(image, line);
                    break;
                }
                do { /* the table is done: on after the line that holds it */
                    if (depth == 0) return 0;
                    depth--;
                    line = above[depth].line;
                    at = above[depth].end;
                    allow_lines(w, above[depth].lines_left, w->lines_left + w->image_spare);
                } while (image[line] & LAST_LINE);
            }
            offset = get16(image + line + 1);
            line += offset;
            if (!take_line(w, at, line, offset, &end)) {
                end = check_line(w, at, line, offset);
                if (end == 0) return w->refusal;
            }
        }
    }
}

/* All of 2 to 11. With a list: the places of the fields stand at its end, from *first on. */
INLINE unsigned check(const uint8_t *image, size_t len, size_t sheet_len, uint16_t *list, unsigned *first)
{
    struct walk w;
    unsigned refusal;

    if (len < PROLOG || len > IMAGE_MOST) return BAD_LENGTH;
    if (image[0] != 0x43 || image[1] != 0x4d || image[2] != 0x46) return BAD_ID;
    if (image[3] != 0 || image[4] != 4) return BAD_VERSION;
    if (image[8] != 0xff || image[9] != 0xfe) return BAD_ORDER;
    w.image = image;
    w.len = len;
    w.oversize = sheet_len > SHEET_MOST;
    w.room = w.oversize ? 0 : sheet_len;
    w.list = list;
    w.fields_left = FIELDS_MOST;
    w.lines_left = 0;
    w.image_spare = LINES_MOST;
    memset(w.taken, 0, (w.room + 63) / 64 * sizeof *w.taken);
    refusal = check_tables(&w, list != NULL);
    if (list) *first = (unsigned)w.fields_left;
    return refusal;
}

static unsigned check_image(const uint8_t *image, size_t len, size_t sheet_len)
{
    return check(image, len, sheet_len, NULL, NULL);
}

static unsigned check_and_list(const uint8_t *image, size_t len, size_t sheet_len, uint16_t *list, unsigned *first)
{
    return check(image, len, sheet_len, list, first);
}
