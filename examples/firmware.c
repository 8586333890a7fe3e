/* A short sitting as firmware would play it: open, ENTER, RIGHT, ENTER on the option of the menu, with the picture after each event.
 * In the repository's folder, once `tools/library` has built the library:
 *   gcc -Iinclude examples/firmware.c target/staticlib/libbinding.a -o firmware && ./firmware
 */
#include <stdio.h>

#include "handset.h"

#define COLUMNS 16
#define LINES 4

static const uint8_t image[] = {
    'C', 'M', 'F', 0, 4, 0, 0, 0, 0xff, 0xfe, /* prolog */
    4, 'T', 'E', 'S', 'T',                    /* title */
    0x01, 26, 0,                              /* first line */
    0x15, 3, 'P', '1', ' ',                   /* text 'P1 ' */
    0,                                        /* padding */
    0xb4, 0, 0, 0, 0, 0, 17, 2, 3, 0,         /* editable option in sheet byte 0, default item 0 */
    2, 'n', 'o', 3, 'y', 'e', 's',            /* its items */
    0x0a, 26, 0, 41, 0,                       /* last line, with a submenu */
    0x95, 3, 'L', 'o', 'g',                   /* text 'Log' */
    4, 'L', 'o', 'g', 's',                    /* the submenu's title */
    0, 0x03,                                  /* padding, its one line */
    0x95, 2, 'O', 'K',                        /* text 'OK' */
};

static uint8_t sheet[1];
static uint8_t session[HANDSET_SESSION_BYTES];

static void show(const char *what, uint32_t answer)
{
    uint8_t picture[COLUMNS * LINES];
    uint32_t cursor = handset_draw(image, sizeof image, sheet, sizeof sheet, session, sizeof session, picture, sizeof picture);
    if (cursor >= HANDSET_REFUSED) {
        printf("%s: %u; the picture is refused: %u\n", what, (unsigned)answer, (unsigned)(cursor - HANDSET_REFUSED));
        return;
    }
    printf("%s: %u; byte 0 is %u", what, (unsigned)answer, (unsigned)sheet[0]);
    if (cursor >= HANDSET_CURSOR)
        printf("; edit cursor at row %u, column %u", (unsigned)((cursor - HANDSET_CURSOR) / 256), (unsigned)(cursor % 256));
    printf("\n");
    for (int row = 0; row < LINES; row++)
        printf("|%.*s|\n", COLUMNS, (const char *)picture + COLUMNS * row);
}

static void key(const char *name, uint32_t event)
{
    show(name, handset_event(image, sizeof image, sheet, sizeof sheet, session, sizeof session, event));
}

int main(void)
{
    uint32_t opened = handset_open(image, sizeof image, sheet, sizeof sheet, COLUMNS, LINES, session, sizeof session);
    show("open", opened);
    key("ENTER", HANDSET_ENTER);
    key("RIGHT", HANDSET_RIGHT);
    key("ENTER", HANDSET_ENTER);

    uint64_t text = handset_option_text(image, sizeof image, sheet, sizeof sheet, 24, sheet[0]);
    if (text < HANDSET_TEXT_REFUSED)
        printf("answered: %.*s\n", (int)(text % 65536), (const char *)image + text / 65536);
    return 0;
}
