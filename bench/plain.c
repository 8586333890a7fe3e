/* A plain C menu executor for CMF 0.4: the four calls of handset.h and those of desk.h, written for speed.
 *
 * plain_check.c has the format and the check (refusals 2 to 11), plain_draw.c the picture, plain_mark.c the marker, plain_record.c
 * records; here are the values of fields, the session and whether it fits, keys and seconds, and the calls. A place is an offset into
 * the image.
 * Build: gcc -O2 -c plain.c
 */
#include "../include/desk.h"

#include <stdbool.h>
#include <string.h>

#include "plain_check.c"

/* ---- Values of fields ---- */

/* A value at work: what a visit changes and a picture shows. */
union work {
    uint8_t cells[8];  /* an integer as it is shown, sign and digits; a password's digits as typed */
    int32_t number;    /* a counter */
    uint32_t bits;     /* a switch */
    uint16_t parts[4]; /* a time or date, in the order shown */
    uint8_t item;      /* an option */
};

static void write_digits(uint8_t *to, unsigned digits, unsigned value)
{
    while (digits--) {
        to[digits] = (uint8_t)('0' + value % 10);
        value /= 10;
    }
}

static void integer_cells(uint8_t *cells, const struct form *form, int32_t value)
{
    unsigned digits = form->cells;

    if (form->sign) {
        *cells++ = value < 0 ? '-' : '+';
        value = value < 0 ? -value : value;
        digits--;
    }
    if (form->base == 10) {
        write_digits(cells, digits, (unsigned)value);
        return;
    }
    while (digits--) {
        cells[digits] = (uint8_t)"0123456789ABCDEF"[value & 15];
        value >>= 4;
    }
}

/* Reads a field's bytes: false if they are out of range. */
static bool read_value(const uint8_t *component, const uint8_t *bytes, union work *work)
{
    unsigned code = component[0] & CODE_BITS;
    const struct form *form = &forms[code];

    switch (form->kind) {
    case INTEGER: {
        int32_t value = integer_value(code, bytes);
        if (!in_range(value, form->low, form->high)) return false;
        integer_cells(work->cells, form, value);
        return true;
    }
    case COUNTING:
        work->number = (int16_t)get16(bytes);
        return counts(component, work->number);
    case PARTS:
        work->parts[1] = bytes[1];
        if (code <= TIME_SHORT) {
            work->parts[0] = bytes[0];
            if (code == TIME_LONG) work->parts[2] = bytes[2];
        } else {
            work->parts[0] = code == DATE_LONG ? get16(bytes + 2) : bytes[2];
            work->parts[2] = bytes[0];
        }
        return parts_ok(bytes, code);
    case SWITCHING:
        work->bits = get32(bytes);
        return switch_ok(work->bits, component[ITEMS]);
    case CHOOSING:
        work->item = bytes[0];
        return work->item < component[ITEMS];
    default: /* a trigger has no value */
        return true;
    }
}

/* The number in an integer's cells; false if it is out of range. Minus zero is 0. */
static bool integer_typed(const struct form *form, const uint8_t *cells, int32_t *value)
{
    unsigned i = form->sign;
    int32_t sum = 0;

    for (; i < form->cells; i++) sum = sum * form->base + (cells[i] <= '9' ? cells[i] - '0' : cells[i] - 'A' + 10);
    if (form->sign && cells[0] == '-') sum = -sum;
    *value = sum;
    return in_range(sum, form->low, form->high);
}

/* Writes a value at work to the field's bytes: false, and nothing written, if it is out of range (only integers can be). */
static bool store(const uint8_t *component, uint8_t *sheet, const union work *work)
{
    unsigned code = component[0] & CODE_BITS;
    const struct form *form = &forms[code];
    uint8_t *bytes = sheet + get16(component + VAR);
    int32_t value;

    switch (form->kind) {
    case INTEGER:
        if (!integer_typed(form, work->cells, &value)) return false;
        bytes[0] = (uint8_t)value;
        if (form->bytes == 2) bytes[1] = (uint8_t)(value >> 8);
        return true;
    case COUNTING:
        put16(bytes, (uint32_t)work->number);
        return true;
    case PARTS:
        bytes[1] = (uint8_t)work->parts[1];
        if (code <= TIME_SHORT) {
            bytes[0] = (uint8_t)work->parts[0];
            if (code == TIME_LONG) bytes[2] = (uint8_t)work->parts[2];
        } else {
            bytes[0] = (uint8_t)work->parts[2];
            bytes[2] = (uint8_t)work->parts[0];
            if (code == DATE_LONG) bytes[3] = (uint8_t)(work->parts[0] >> 8);
        }
        return true;
    case SWITCHING:
        put16(bytes, work->bits);
        put16(bytes + 2, work->bits >> 16);
        return true;
    default:
        bytes[0] = work->item;
        return true;
    }
}

/* ---- The session ---- */

enum { BROWSING, VISIT, ENTRY };

struct level {
    uint16_t table;
    uint8_t cursor, first; /* cursor line and first shown line, from 0 */
};

struct session {
    uint8_t depth; /* tables on the way, the top one included; 0 when closed */
    uint8_t columns, lines;
    uint8_t mode;
    uint8_t idle;
    uint8_t cell;   /* a visit's cell or part; the digits typed of a password */
    uint16_t field; /* the place of the component visited */
    union work work;
    struct level levels[DEPTH_MOST];
};

_Static_assert(sizeof(struct session) <= HANDSET_SESSION_BYTES, "a session fits its buffer");

/* Where a session that fits stands in the image. */
struct here {
    const uint8_t *image;
    size_t shown; /* the first shown line */
    size_t line;  /* the cursor line */
};

/* A cell or part that the component has, and a legal value at work. */
static bool work_fits(const uint8_t *component, const struct session *s)
{
    unsigned code = component[0] & CODE_BITS;
    const struct form *form = &forms[code];
    const union work *work = &s->work;

    switch (form->kind) {
    case INTEGER: {
        unsigned i = form->sign;
        if (s->cell >= form->cells || (form->sign && work->cells[0] != '+' && work->cells[0] != '-')) return false;
        for (; i < form->cells; i++)
            if (!is_digit(work->cells[i]) && (form->base == 10 || (uint8_t)(work->cells[i] - 'A') > 5)) return false;
        return true;
    }
    case COUNTING: return counts(component, work->number);
    case PARTS:
        if (s->cell >= part_count(code)) return false;
        for (unsigned i = 0; i < part_count(code); i++)
            if (!in_range(work->parts[i], parts_for(code)[i].low, parts_for(code)[i].high)) return false;
        return work->parts[s->cell] <= part_most(code, s->cell, work->parts);
    case SWITCHING: return s->cell < component[ITEMS] && switch_ok(work->bits, component[ITEMS]);
    case CHOOSING: return work->item < component[ITEMS];
    default: return true;
    }
}

/* The visit's component stands on the cursor line and is editable. */
static bool visit_fits(const uint8_t *image, size_t line, const struct session *s)
{
    size_t place = first_component(image, line);

    while (place != s->field) {
        if (image[place] & LAST_COMPONENT) return false;
        place = next_component(image, place);
    }
    return editable(image + place) && work_fits(image + place, s);
}

static bool entry_fits(const uint8_t *image, size_t line, const struct session *s)
{
    if (!(image[line] & PROTECTED) || s->cell >= *password_of(image, line)) return false;
    for (unsigned i = 0; i < s->cell; i++)
        if (s->work.cells[i] > 9) return false;
    return true;
}

/* Hops over lines; 0 if the table ends before. */
INLINE size_t hop(const uint8_t *image, size_t line, unsigned lines)
{
    for (; lines; lines--) {
        if (image[line] & LAST_LINE) return 0;
        line = next_line(image, line);
    }
    return line;
}

static bool fits(const uint8_t *image, const struct session *s, struct here *here)
{
    size_t table = PROLOG;
    unsigned level = 0;

    if (s->depth - 1u >= DEPTH_MOST || s->columns - 14u > 6 || s->lines - 2u > 2) return false;
    for (;;) {
        const struct level *l = &s->levels[level];

        if (l->table != table || (unsigned)l->cursor - l->first >= s->lines - 1u) return false;
        here->shown = hop(image, first_line(image, table), l->first);
        if (here->shown == 0) return false;
        here->line = hop(image, here->shown, l->cursor - (unsigned)l->first);
        if (here->line == 0) return false;
        if (++level == s->depth) break;
        if (!(image[here->line] & SUBMENU)) return false;
        table = submenu_of(image, here->line);
    }
    here->image = image;
    if (s->mode == BROWSING) return true;
    return s->mode == VISIT ? visit_fits(image, here->line, s) : s->mode == ENTRY && entry_fits(image, here->line, s);
}

/* ---- Keys ---- */

INLINE void show_table(struct session *s, size_t table)
{
    s->levels[s->depth] = (struct level){(uint16_t)table, 0, 0};
    s->depth++;
}

/* Opens a visit to the first editable component from `place` on; without one the session browses. */
static bool open_visit(const uint8_t *image, size_t place, const uint8_t *sheet, struct session *s)
{
    const uint8_t *component = image + place;

    while (!editable(component)) {
        if (component[0] & LAST_COMPONENT) return false;
        component = image + next_component(image, (size_t)(component - image));
    }
    s->mode = VISIT;
    s->cell = 0;
    s->field = (uint16_t)(component - image);
    if ((component[0] & CODE_BITS) != TRIGGER && !read_value(component, sheet + get16(component + VAR), &s->work))
        read_value(component, component + forms[component[0] & CODE_BITS].preset, &s->work);
    return true;
}

static uint32_t browse_key(const struct here *here, const uint8_t *sheet, struct session *s, unsigned key)
{
    const uint8_t *image = here->image;
    struct level *level = &s->levels[s->depth - 1];
    unsigned tag = image[here->line];

    switch (key) {
    case HANDSET_UP:
        if (level->cursor == 0) return HANDSET_FLASH;
        if (level->cursor == level->first) level->first--;
        level->cursor--;
        return HANDSET_TAKEN;
    case HANDSET_DOWN:
        if (tag & LAST_LINE) return HANDSET_FLASH;
        level->cursor++;
        if (level->cursor - level->first == s->lines - 1) level->first++;
        return HANDSET_TAKEN;
    case HANDSET_LEFT:
        if (s->depth == 1) return HANDSET_FLASH;
        s->depth--;
        return HANDSET_TAKEN;
    case HANDSET_RIGHT:
        if (!(tag & SUBMENU)) return HANDSET_FLASH;
        if (tag & PROTECTED) {
            s->mode = ENTRY;
            s->cell = 0;
        } else {
            show_table(s, submenu_of(image, here->line));
        }
        return HANDSET_TAKEN;
    case HANDSET_ENTER:
        return open_visit(image, first_component(image, here->line), sheet, s) ? HANDSET_TAKEN : HANDSET_FLASH;
    default: return HANDSET_FLASH;
    }
}

static uint32_t entry_key(const struct here *here, struct session *s, unsigned key)
{
    const uint8_t *password = password_of(here->image, here->line);

    if (key == HANDSET_LEFT) {
        s->mode = BROWSING;
        return HANDSET_TAKEN;
    }
    if (key > 9) return HANDSET_FLASH;
    s->work.cells[s->cell++] = (uint8_t)key;
    if (s->cell < password[0]) return HANDSET_TAKEN;
    s->mode = BROWSING;
    for (unsigned i = 0; i < password[0]; i++)
        if (s->work.cells[i] + '0' != password[1 + i]) return HANDSET_FLASH;
    show_table(s, submenu_of(here->image, here->line));
    return HANDSET_TAKEN;
}

/* LEFT and RIGHT over cells. */
INLINE bool move_cell(struct session *s, unsigned key, unsigned cells)
{
    if (key == HANDSET_LEFT && s->cell > 0)
        s->cell--;
    else if (key == HANDSET_RIGHT && s->cell + 1u < cells)
        s->cell++;
    else
        return false;
    return true;
}

static bool integer_key(const struct form *form, struct session *s, unsigned key)
{
    uint8_t *cell = &s->work.cells[s->cell];
    bool on_sign = form->sign && s->cell == 0;

    if (key == HANDSET_UP) {
        if (on_sign)
            *cell = '+';
        else if (*cell == (form->base == 16 ? 'F' : '9'))
            return false;
        else
            *cell = *cell == '9' ? 'A' : *cell + 1;
        return true;
    }
    if (key == HANDSET_DOWN) {
        if (on_sign)
            *cell = '-';
        else if (*cell == '0')
            return false;
        else
            *cell = *cell == 'A' ? '9' : *cell - 1;
        return true;
    }
    if (key > 9) return move_cell(s, key, form->cells);
    if (on_sign) return false;
    *cell = (uint8_t)('0' + key);
    if (s->cell + 1 < form->cells) s->cell++;
    return true;
}

static bool counter_key(const uint8_t *component, struct session *s, unsigned key)
{
    int32_t step = (int16_t)get16(component + COUNTER_STEP);
    int32_t next = s->work.number;

    if (key == HANDSET_UP)
        next += step;
    else if (key == HANDSET_DOWN)
        next -= step;
    else
        return false;
    if (!counts(component, next)) return false;
    s->work.number = next;
    return true;
}

static bool part_key(unsigned code, struct session *s, unsigned key)
{
    uint16_t *value = &s->work.parts[s->cell];

    if (key == HANDSET_UP && *value < part_most(code, s->cell, s->work.parts))
        ++*value;
    else if (key == HANDSET_DOWN && *value > parts_for(code)[s->cell].low)
        --*value;
    else
        return false;
    return true;
}

static bool switch_key(unsigned count, struct session *s, unsigned key)
{
    uint32_t bit = UINT32_C(1) << (count - 1 - s->cell); /* highest stated bit first */

    if (key == HANDSET_UP)
        s->work.bits |= bit;
    else if (key == HANDSET_DOWN)
        s->work.bits &= ~bit;
    else
        return move_cell(s, key, count);
    return true;
}

static bool option_key(unsigned count, struct session *s, unsigned key)
{
    if (key == HANDSET_LEFT && s->work.item > 0)
        s->work.item--;
    else if (key == HANDSET_RIGHT && s->work.item + 1u < count)
        s->work.item++;
    else
        return false;
    return true;
}

/* Goes on to the next part. Only a day can be past its most there, and is lowered to the month's end. */
INLINE void next_part(unsigned code, struct session *s)
{
    unsigned cell = ++s->cell;
    unsigned most = part_most(code, cell, s->work.parts);

    if (s->work.parts[cell] > most) s->work.parts[cell] = (uint16_t)most;
}

/* ENTER in a visit: the next part, or the end of the visit and on to the next editable component. */
static uint32_t visit_enter(const uint8_t *image, uint8_t *sheet, struct session *s)
{
    size_t place = s->field;
    const uint8_t *component = image + place;
    unsigned code = component[0] & CODE_BITS;
    uint32_t answer = HANDSET_TAKEN;

    if (forms[code].kind == PARTS && s->cell + 1u < part_count(code)) {
        next_part(code, s);
        return HANDSET_TAKEN;
    }
    if (code != TRIGGER) {
        if (!store(component, sheet, &s->work)) return HANDSET_FLASH;
        answer = HANDSET_FINISHED + (uint32_t)place;
    }
    s->mode = BROWSING;
    if (!(component[0] & LAST_COMPONENT)) open_visit(image, next_component(image, place), sheet, s);
    return answer;
}

static uint32_t visit_key(const uint8_t *image, uint8_t *sheet, struct session *s, unsigned key)
{
    const uint8_t *component = image + s->field;
    unsigned code = component[0] & CODE_BITS;
    bool taken;

    if (key == HANDSET_ENTER) return visit_enter(image, sheet, s);
    switch (forms[code].kind) {
    case INTEGER: taken = integer_key(&forms[code], s, key); break;
    case COUNTING: taken = counter_key(component, s, key); break;
    case PARTS: taken = part_key(code, s, key); break;
    case SWITCHING: taken = switch_key(component[ITEMS], s, key); break;
    case CHOOSING: taken = option_key(component[ITEMS], s, key); break;
    default: /* a trigger: any cursor key fires it */
        return key >= HANDSET_UP ? HANDSET_FIRED + s->field : HANDSET_FLASH;
    }
    return taken ? HANDSET_TAKEN : HANDSET_FLASH;
}

static void second(const uint8_t *image, struct session *s)
{
    uint8_t delay = image[s->mode == ENTRY ? DELAY_PASSWORD : DELAY_TO_TOP];

    if (s->mode == VISIT) return;
    if (s->idle < 255) s->idle++;
    if (delay == 0 || s->idle < delay) return;
    if (s->mode == ENTRY) {
        s->mode = BROWSING;
    } else {
        s->depth = 0;
        show_table(s, PROLOG);
    }
}

/* ---- The picture: uint32_t draw(here, sheet, session, picture) ---- */

#include "plain_draw.c"

/* ---- The four calls ---- */

/* Each field's default goes to its sheet bytes as it stands in the image. */
static void write_defaults(const uint8_t *image, uint8_t *sheet, const uint16_t *list, unsigned first)
{
    for (unsigned i = first; i < FIELDS_MOST; i++) {
        const uint8_t *component = image + list[i];
        const struct form *form = &forms[component[0] & CODE_BITS];
        const uint8_t *from = component + form->preset;
        uint8_t *to;

        if (form->kind == FIRING) continue;
        to = sheet + get16(component + VAR);
        to[0] = from[0];
        for (unsigned n = 1; n < form->bytes; n++) to[n] = from[n];
    }
}

/* The refusal of an opening, 0 for none; a closed session in the buffer, if it has the right length, where it is refused. */
static unsigned begin(const uint8_t *image, size_t image_len, uint8_t *sheet, size_t sheet_len, uint32_t columns, uint32_t lines,
                      uint8_t *session, size_t session_len, struct session *s)
{
    uint16_t list[FIELDS_MOST];
    unsigned first;
    unsigned refusal = BAD_SHAPE;

    if (columns - 14u <= 6 && lines - 2u <= 2) refusal = check_and_list(image, image_len, sheet_len, list, &first);
    if (session_len != HANDSET_SESSION_BYTES) return refusal ? refusal : NO_FIT;
    if (refusal) {
        session[offsetof(struct session, depth)] = 0; /* closed */
        return refusal;
    }
    write_defaults(image, sheet, list, first);
    *s = (struct session){.columns = (uint8_t)columns, .lines = (uint8_t)lines};
    show_table(s, PROLOG);
    return 0;
}

uint32_t handset_open(const uint8_t *image, size_t image_len, uint8_t *sheet, size_t sheet_len, uint32_t columns, uint32_t lines,
                      uint8_t *session, size_t session_len)
{
    struct session s;
    unsigned refusal = begin(image, image_len, sheet, sheet_len, columns, lines, session, session_len, &s);

    if (refusal) return HANDSET_REFUSED + refusal;
    memcpy(session, &s, sizeof s);
    return 0;
}

/* An event on a session that fits. */
INLINE uint32_t step(const uint8_t *image, uint8_t *sheet, struct session *s, const struct here *here, unsigned event)
{
    if (event == HANDSET_SECOND) {
        second(image, s);
        return HANDSET_TAKEN;
    }
    s->idle = 0;
    if (s->mode == BROWSING) return browse_key(here, sheet, s, event);
    if (s->mode == VISIT) return visit_key(image, sheet, s, event);
    return entry_key(here, s, event);
}

uint32_t handset_event(const uint8_t *image, size_t image_len, uint8_t *sheet, size_t sheet_len, uint8_t *session,
                       size_t session_len, uint32_t event)
{
    struct session s;
    struct here here;
    uint32_t answer;
    unsigned refusal = check_image(image, image_len, sheet_len);

    if (refusal) return HANDSET_REFUSED + refusal;
    if (session_len != HANDSET_SESSION_BYTES) return HANDSET_REFUSED + NO_FIT;
    memcpy(&s, session, sizeof s);
    if (!fits(image, &s, &here)) return HANDSET_REFUSED + NO_FIT;
    if (event > HANDSET_SECOND) return HANDSET_REFUSED + BAD_EVENT;
    answer = step(image, sheet, &s, &here, event);
    memcpy(session, &s, sizeof s);
    return answer;
}

uint32_t handset_draw(const uint8_t *image, size_t image_len, const uint8_t *sheet, size_t sheet_len, const uint8_t *session,
                      size_t session_len, uint8_t *picture, size_t picture_len)
{
    struct session s;
    struct here here;
    unsigned refusal = check_image(image, image_len, sheet_len);

    if (refusal) return HANDSET_REFUSED + refusal;
    if (session_len != HANDSET_SESSION_BYTES) return HANDSET_REFUSED + NO_FIT;
    memcpy(&s, session, sizeof s);
    if (!fits(image, &s, &here)) return HANDSET_REFUSED + NO_FIT;
    if (picture_len != (size_t)s.columns * s.lines) return HANDSET_REFUSED + BAD_SHAPE;
    return draw(&here, sheet, &s, picture);
}

uint64_t handset_option_text(const uint8_t *image, size_t image_len, const uint8_t *sheet, size_t sheet_len, size_t place,
                             size_t item)
{
    uint16_t list[FIELDS_MOST];
    unsigned first;
    unsigned refusal = check_and_list(image, image_len, sheet_len, list, &first);

    (void)sheet;
    if (refusal) return HANDSET_TEXT_REFUSED + refusal;
    for (unsigned i = first; i < FIELDS_MOST; i++) {
        const uint8_t *component = image + place;
        const uint8_t *text;

        if (list[i] != place) continue;
        if ((component[0] & CODE_BITS) != OPTION || item >= component[ITEMS]) break;
        text = option_item(component, (unsigned)item);
        return 65536u * (uint64_t)(text + 1 - image) + *text;
    }
    return HANDSET_TEXT_REFUSED + NO_ITEM;
}

/* ---- The marker: handset_mark ---- */

#include "plain_mark.c"

/* ---- Records: handset_record and handset_play ---- */

#include "plain_record.c"
