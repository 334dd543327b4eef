/* Station K of document 01 as a tool writes it that pads numbers with zeros: it is read as the printed file, and written in the old form. Then
 * fields that come near to padded numbers: each in turn is the section of the first train.
 *
 *   cc -Iinclude examples-c/padded.c target/staticlib/libjudge.a -o padded && ./padded */
#include <stdio.h>
#include <string.h>

#include "judge.h"

enum { TRAIN_LINE = 6 };

static const char station[] =
    "S00005000010000400002\n"
    "P0000200001          \n"
    "L   01  00200001     \n"
    "D00002    3 0004    1\n"
    "L0000300005   01     \n"
    "L    4    5    1     \n"
    "T00001               \n"
    "T   04               \n";

static const char *const fields[] = {"    1", "00001", "  001", "   01", "00000", "00006", "0 001", "  01 ", "-0001", "+0001", "     "};

int main(void)
{
    static judge_reading reading;
    uint8_t file[sizeof station], text[sizeof station - 1];
    memcpy(file, station, sizeof station);
    reading = judge_read(file, sizeof text);
    judge_refusal q = judge_write(reading.situation, text, sizeof text).refusal;
    if (q.number != JUDGE_NO_REFUSAL) {
        printf("refusal %u, line %u\n", (unsigned)q.number, (unsigned)q.line);
        return 1;
    }
    printf("in the old form:\n%.*s", (int)sizeof text, (const char *)text);

    for (size_t f = 0; f < sizeof fields / sizeof *fields; f++) {
        memcpy(file + TRAIN_LINE * JUDGE_LINE_SIZE + 1, fields[f], 5);
        reading = judge_read(file, sizeof text);
        if (reading.refusal.number == JUDGE_NO_REFUSAL)
            printf("T%s: section %u\n", fields[f], (unsigned)reading.situation.train_section[0]);
        else
            printf("T%s: refusal %u, line %u\n", fields[f], (unsigned)reading.refusal.number, (unsigned)reading.refusal.line);
    }
    return 0;
}
