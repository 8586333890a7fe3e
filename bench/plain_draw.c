/* The picture of a session that fits: part of plain.c, which includes it. */

/* Data cells still free in a row; the picture is blank before it is drawn. */
struct row {
    uint8_t *at;
    size_t left;
};

INLINE size_t take(struct row *row, size_t cells)
{
    size_t n = cells < row->left ? cells : row->left;

    row->at += n;
    row->left -= n;
    return n;
}

INLINE void put(struct row *row, const uint8_t *text, size_t cells)
{
    uint8_t *to = row->at;
    size_t n = take(row, cells);

    memcpy(to, text, n);
}

static unsigned cells_of(const uint8_t *component)
{
    unsigned code = component[0] & CODE_BITS;

    switch (code) {
    case COUNTER: return component[COUNTER_WIDTH];
    case SWITCH: return component[ITEMS];
    case OPTION: return component[OPTION_WIDTH];
    case STRING: return component[1];
    default: return forms[code].cells;
    }
}

static void draw_counter(struct row *row, unsigned width, int32_t value)
{
    uint8_t cells[6];
    unsigned n = counter_cells(value);

    if (value < 0) {
        cells[0] = '-';
        write_digits(cells + 1, n - 1, (unsigned)-value);
    } else {
        write_digits(cells, n, (unsigned)value);
    }
    take(row, width - n);
    put(row, cells, n);
}

static void draw_parts(struct row *row, unsigned code, const uint16_t *values)
{
    const struct part *part = parts_for(code);
    uint8_t cells[10];
    unsigned count = part_count(code);

    for (unsigned i = 0; i < count; i++) {
        write_digits(cells + part[i].cell, part[i].digits, values[i]);
        if (i > 0) cells[part[i].cell - 1] = code <= TIME_SHORT ? ':' : '-';
    }
    put(row, cells, forms[code].cells);
}

static void draw_switch(struct row *row, unsigned count, uint32_t bits)
{
    uint8_t *to = row->at;
    size_t n = take(row, count);

    for (size_t i = 0; i < n; i++) to[i] = (uint8_t)('0' + (bits >> (count - 1 - i) & 1));
}

/* An option is padded right to its width: the row is blank already. */
static void draw_option(struct row *row, const uint8_t *component, unsigned item)
{
    const uint8_t *text = option_item(component, item);

    put(row, text + 1, *text);
    take(row, component[OPTION_WIDTH] - (unsigned)*text);
}

static void draw_value(struct row *row, const uint8_t *component, const union work *work)
{
    unsigned code = component[0] & CODE_BITS;

    switch (forms[code].kind) {
    case INTEGER: put(row, work->cells, forms[code].cells); break;
    case COUNTING: draw_counter(row, component[COUNTER_WIDTH], work->number); break;
    case PARTS: draw_parts(row, code, work->parts); break;
    case SWITCHING: draw_switch(row, component[ITEMS], work->bits); break;
    default:
        draw_option(row, component, work->item);
    }
}

/* Where the edit cursor stands within the component visited. */
static unsigned cursor_cell(const uint8_t *component, const struct session *s)
{
    unsigned code = component[0] & CODE_BITS;

    switch (forms[code].kind) {
    case INTEGER:
    case SWITCHING: return s->cell;
    case COUNTING: return component[COUNTER_WIDTH] - 1u;
    case PARTS: return parts_for(code)[s->cell].cell;
    case FIRING: return 1;
    default: return 0;
    }
}

static void draw_component(struct row *row, const uint8_t *component, const uint8_t *sheet)
{
    unsigned code = component[0] & CODE_BITS;
    union work work;

    if (code == STRING) {
        put(row, component + 2, component[1]);
    } else if (code == TRIGGER) {
        put(row, (const uint8_t *)"[*]", 3);
    } else if (code == OPTION && sheet[get16(component + VAR)] < component[ITEMS]) {
        draw_option(row, component, sheet[get16(component + VAR)]);
    } else if (read_value(component, sheet + get16(component + VAR), &work)) {
        draw_value(row, component, &work);
    } else {
        uint8_t *to = row->at;
        memset(to, '#', take(row, cells_of(component)));
    }
}

/* The data cells of a line. */
static void draw_data(uint8_t *at, size_t cells, const uint8_t *image, size_t line, const uint8_t *sheet)
{
    struct row row = {at, cells};
    size_t place = first_component(image, line);

    draw_component(&row, image + place, sheet);
    while (!(image[place] & LAST_COMPONENT) && row.left > 0) {
        place = next_component(image, place);
        draw_component(&row, image + place, sheet);
    }
}

/* The data cells of the cursor line, the visit's value at work among them. Answers the edit cursor's data cell, or `cells`
 * without a visit; tells whether a component is editable. */
static size_t draw_cursor_data(uint8_t *at, size_t cells, const uint8_t *image, size_t line, const uint8_t *sheet,
                               const struct session *s, bool *edit)
{
    struct row row = {at, cells};
    size_t place = first_component(image, line);
    size_t cursor = cells;
    bool found = false;

    for (;; place = next_component(image, place)) {
        const uint8_t *component = image + place;

        found |= editable(component);
        if (s->mode == VISIT && place == s->field) {
            cursor = cells - row.left + cursor_cell(component, s);
            if (cursor > cells - 1) cursor = cells - 1;
            if ((component[0] & CODE_BITS) == TRIGGER)
                draw_component(&row, component, sheet);
            else
                draw_value(&row, component, &s->work);
        } else {
            draw_component(&row, component, sheet);
        }
        if ((component[0] & LAST_COMPONENT) || (found && row.left == 0 && (s->mode != VISIT || cursor < cells))) break;
    }
    *edit = found;
    return cursor;
}

static void draw_password_row(uint8_t *row, const uint8_t *password, unsigned typed)
{
    memcpy(row, "Pwd:", 4);
    for (unsigned i = 0; i < password[0]; i++) row[4 + i] = i < typed ? '*' : '.';
}

static void draw_title_row(uint8_t *picture, const struct here *here, const struct session *s, bool edit)
{
    const struct level *level = &s->levels[s->depth - 1];
    const uint8_t *title = here->image + level->table;
    struct row row = {picture, s->columns - 4u};
    uint8_t *status = picture + s->columns - 4;
    unsigned number = level->cursor + 1u;
    unsigned rows = s->lines - 1u;

    put(&row, title + 1, title[0]);
    status[0] = edit ? ':' : '*';
    if (number > 9) status[1] = (uint8_t)('0' + number / 10);
    status[2] = (uint8_t)('0' + number % 10);
    if (level->cursor >= rows || hop(here->image, here->line, rows - level->cursor) != 0) /* more lines than rows */
        status[3] = here->image[here->line] & LAST_LINE ? '!' : '+';
}

static uint32_t draw(const struct here *here, const uint8_t *sheet, const struct session *s, uint8_t *picture)
{
    const uint8_t *image = here->image;
    size_t columns = s->columns, cells = columns - 2u, line = here->shown;
    uint32_t answer = 0;
    bool edit = false;

    memset(picture, ' ', columns * s->lines);
    for (unsigned r = 1; r < s->lines; r++) {
        uint8_t *row = picture + r * columns;
        unsigned tag = image[line];

        if (line == here->line) {
            size_t cursor = draw_cursor_data(row + 1, cells, image, line, sheet, s, &edit);
            row[0] = '>';
            if (cursor < cells) answer = HANDSET_CURSOR + 256 * r + (uint32_t)(1 + cursor);
        } else {
            draw_data(row + 1, cells, image, line, sheet);
        }
        if (tag & SUBMENU) row[columns - 1] = tag & PROTECTED ? 'P' : '>';
        if (tag & LAST_LINE) break;
        line = next_line(image, line);
    }
    if (s->mode == ENTRY)
        draw_password_row(picture, password_of(image, here->line), s->cell);
    else
        draw_title_row(picture, here, s, edit);
    return answer;
}
