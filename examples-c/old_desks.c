/* The converter for desks that read only S files. A U file whose trains have one section each goes to S, is judged beside the original, and comes
 * back; with a train over two sections it is refused.
 *
 *   cc -Iinclude examples-c/old_desks.c target/staticlib/libjudge.a -o old_desks && ./old_desks */
#include <stdio.h>
#include <string.h>

#include "judge.h"

/* Three sections in a row, two signals at proceed, a train in section 1 and one in section 3. */
static const char station[] =
    "U    3    0    2    2\n"
    "L    1    2    1     \n"
    "L    2    3    1     \n"
    "T    1               \n"
    "T    3               \n";

enum { SIZE = sizeof station - 1 };

static void refused(const char *what, judge_filled f)
{
    printf("%s: refusal %u, line %u\n", what, (unsigned)f.refusal.number, (unsigned)f.refusal.line);
}

static void judged(const char *what, const uint8_t *file)
{
    uint16_t first[3], second[3];
    judge_verdict_answer v = judge_verdict(file, SIZE, first, 3, second, 3);
    printf("%s %c: %s, trains %u and %u, section %u, entries %lu, looks %lu\n", what, file[0], v.dangerous ? "dangerous" : "safe",
           (unsigned)v.first_train, (unsigned)v.second_train, (unsigned)v.meeting, (unsigned long)v.entries, (unsigned long)v.looks);
}

int main(void)
{
    uint8_t original[SIZE], converted[SIZE], back[SIZE];
    memcpy(original, station, SIZE);

    judge_filled f = judge_to_s(original, SIZE, converted, SIZE);
    printf("%zu bytes to S:\n", f.length);
    fwrite(converted, 1, f.length, stdout);
    judged("original", original);
    judged("converted", converted);
    f = judge_to_u(converted, SIZE, back, SIZE);
    printf("%zu bytes and back: %s\n", f.length, memcmp(original, back, SIZE) == 0 ? "the original" : "other bytes");

    /* A buffer that is a byte too short, also where the letter stays; and train 2 over sections 3 and 2, in line 5. */
    refused("to S, a byte too short", judge_to_s(original, SIZE, converted, SIZE - 1));
    refused("to U, a byte too short", judge_to_u(original, SIZE, converted, SIZE - 1));
    memcpy(original + 4 * JUDGE_LINE_SIZE, "T    3    2          \n", JUDGE_LINE_SIZE);
    refused("to S, a long train", judge_to_s(original, SIZE, converted, SIZE));
    f = judge_to_u(original, SIZE, converted, SIZE);
    printf("to U, a long train: %zu bytes\n", f.length);
    return 0;
}
