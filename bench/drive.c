/* Plays keys on an image at 20 x 4 with a sheet of 4,096 bytes, draws after each event, and at the end marks the sheet by KEY, a
 * file of two-byte numbers, low byte first, records the events, and plays the record:  drive IMAGE KEYS ROUNDS KEY
 * Prints for each call how often it was made and the nanoseconds that it took on average, the last marking's answer, and a sum over
 * answers, pictures, markings, records and sheets, which libraries that agree have in common. Linked with a library that has the
 * calls of desk.h.
 */
#define _POSIX_C_SOURCE 199309L
#include "../include/desk.h"

#include <stdio.h>
#include <stdlib.h>
#include <string.h>
#include <time.h>

enum { COLUMNS = 20, LINES = 4 };
enum { OPEN, EVENT, DRAW, MARK, RECORD, PLAY, CALLS };

static const char *const names[CALLS] = {"open", "event", "draw", "mark", "record", "play"};
static uint8_t image[32768], sheet[4096], session[HANDSET_SESSION_BYTES], picture[COLUMNS * LINES];
static char keys[65536];
static uint16_t key[65536];
static uint8_t events[HANDSET_MAX_EVENTS], room[HANDSET_MAX_RECORD];
static uint32_t sums[HANDSET_SUMS], answers[HANDSET_MAX_EVENTS], marked, sum;
static size_t image_len, keys_len, key_count, events_len;
static unsigned long long spent[CALLS], calls[CALLS];

static size_t load(const char *path, void *to, size_t most)
{
    FILE *file = fopen(path, "rb");
    size_t n = file ? fread(to, 1, most, file) : 0;

    if (!file)
        perror(path), exit(1);
    fclose(file);
    return n;
}

static size_t load_key(const char *path)
{
    static uint8_t bytes[2 * 65536];
    size_t count = load(path, bytes, sizeof bytes) / 2;

    for (size_t i = 0; i < count; i++)
        key[i] = (uint16_t)(bytes[2 * i] | bytes[2 * i + 1] << 8);
    return count;
}

static unsigned long long now(void)
{
    struct timespec t;

    clock_gettime(CLOCK_MONOTONIC, &t);
    return (unsigned long long)t.tv_sec * 1000000000u + (unsigned long long)t.tv_nsec;
}

static void add(uint32_t number)
{
    sum = sum * 31 + number;
}

static uint32_t done(int call, unsigned long long began, uint32_t answer)
{
    spent[call] += now() - began;
    calls[call]++;
    add(answer);
    return answer;
}

static void press(uint32_t event)
{
    unsigned long long began = now();

    done(EVENT, began, handset_event(image, image_len, sheet, sizeof sheet, session, sizeof session, event));
    began = now();
    done(DRAW, began, handset_draw(image, image_len, sheet, sizeof sheet, session, sizeof session, picture, sizeof picture));
    for (size_t k = 0; k < sizeof picture; k++)
        add(picture[k]);
}

/* Records the events and plays the record; a sitting that is replayed leaves the same sheet. */
static void replay(void)
{
    unsigned long long began = now();
    uint32_t length = done(RECORD, began, handset_record(events, events_len, room, sizeof room));

    for (size_t k = 0; k < length && k < sizeof room; k++)
        add(room[k]);
    began = now();
    done(PLAY, began, handset_play(image, image_len, sheet, sizeof sheet, COLUMNS, LINES, room, length, answers, HANDSET_MAX_EVENTS,
                                   session, sizeof session));
    for (size_t k = 0; k < events_len; k++)
        add(answers[k]);
}

static void sit(void)
{
    unsigned long long began = now();

    done(OPEN, began, handset_open(image, image_len, sheet, sizeof sheet, COLUMNS, LINES, session, sizeof session));
    for (size_t i = 0; i < events_len; i++)
        press(events[i]);
    began = now();
    marked = done(MARK, began, handset_mark(image, image_len, sheet, sizeof sheet, key, key_count, sums, HANDSET_SUMS));
    for (size_t k = 0; k < HANDSET_SUMS; k++)
        add(sums[k]);
    replay();
}

/* The events that the keys stand for. */
static void read_events(void)
{
    static const char letters[] = "0123456789.udlres";

    for (size_t i = 0; i < keys_len && events_len < sizeof events; i++) {
        const char *letter = keys[i] ? strchr(letters, keys[i]) : NULL;

        if (letter)
            events[events_len++] = (uint8_t)(letter - letters);
    }
}

int main(int argc, char **argv)
{
    if (argc < 5)
        return 2;
    image_len = load(argv[1], image, sizeof image);
    keys_len = load(argv[2], keys, sizeof keys);
    key_count = load_key(argv[4]);
    read_events();
    for (int rounds = atoi(argv[3]); rounds > 0; rounds--)
        sit();
    for (size_t k = 0; k < sizeof sheet; k++)
        add(sheet[k]);
    for (int call = 0; call < CALLS; call++)
        printf("%s %llu %llu ", names[call], calls[call], calls[call] ? spent[call] / calls[call] : 0);
    printf("marked %lu sum %08lx\n", (unsigned long)marked, (unsigned long)sum);
    return 0;
}
