/* The walk through all settings of station K of document 01, all of its elements open: a line for each frame, the states in element order, the
 * element that changed, and whether the setting is safe.
 *
 *   cc -Iinclude examples-c/frames.c target/staticlib/libjudge.a -o frames && ./frames */
#include <stdio.h>
#include <string.h>

#include "judge.h"

enum { ELEMENTS = 4, FRAMES = 16 };

static const char station[] =
    "S    5    1    4    2\n"
    "P    2    1          \n"
    "L    1    2    0     \n"
    "D    2    3    4    0\n"
    "L    3    5    0     \n"
    "L    4    5    0     \n"
    "T    1               \n"
    "T    4               \n";

static judge_refusal ask(uint64_t frame, uint8_t *setting, size_t room)
{
    return judge_frame((const uint8_t *)station, sizeof station - 1, frame, setting, room);
}

/* Whether the station with this setting is safe: its verdict, with the states written into the element lines. */
static int is_safe(const uint8_t *setting)
{
    uint8_t file[sizeof station];
    uint16_t first[JUDGE_MAX_SECTIONS], second[JUDGE_MAX_SECTIONS];
    memcpy(file, station, sizeof station);
    for (size_t e = 0; e < ELEMENTS; e++) {
        uint8_t *line = file + (2 + e) * JUDGE_LINE_SIZE;
        line[line[0] == 'D' ? 20 : 15] = (uint8_t)('0' + setting[e]);
    }
    return !judge_verdict(file, sizeof station - 1, first, JUDGE_MAX_SECTIONS, second, JUDGE_MAX_SECTIONS).dangerous;
}

static void print_setting(const uint8_t *setting)
{
    for (size_t e = 0; e < ELEMENTS; e++)
        printf(" %u", (unsigned)setting[e]);
}

int main(void)
{
    uint8_t before[ELEMENTS], setting[ELEMENTS];
    unsigned safe = 0;
    ask(FRAMES - 1, before, ELEMENTS);
    for (uint64_t n = 0; n < FRAMES; n++) {
        judge_refusal q = ask(n, setting, ELEMENTS);
        if (q.number != JUDGE_NO_REFUSAL) {
            printf("refusal %u, line %u\n", (unsigned)q.number, (unsigned)q.line);
            return 1;
        }
        printf("frame %2u:", (unsigned)n);
        print_setting(setting);
        for (unsigned e = 0; e < ELEMENTS; e++)
            if (setting[e] != before[e])
                printf("  element %u", e + 1);
        printf("%s\n", is_safe(setting) ? "  safe" : "");
        safe += (unsigned)is_safe(setting);
        memcpy(before, setting, ELEMENTS);
    }

    uint8_t chosen[ELEMENTS];
    judge_settings_answer a = judge_settings((const uint8_t *)station, sizeof station - 1, chosen, ELEMENTS);
    printf("%u frames are safe; the settings question finds %u, and chooses", safe, (unsigned)a.safe);
    print_setting(chosen);
    printf("\n");

    /* Past the last the walk starts over; the highest number is the last frame of a round. */
    ask(FRAMES, setting, ELEMENTS);
    printf("frame 16:");
    print_setting(setting);
    ask(UINT64_MAX, setting, ELEMENTS);
    printf("\nframe 18446744073709551615:");
    print_setting(setting);
    printf("\na buffer of 3 bytes: refusal %u\n", (unsigned)ask(0, setting, 3).number);
    return 0;
}
