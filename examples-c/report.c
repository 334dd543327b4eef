/* The report of a short session, of an empty one, and the refusal of a record with more marks gained than possible.
 *
 *   cc -Iinclude examples-c/report.c target/staticlib/libjudge.a -o report && ./report */
#include <stdio.h>

#include "judge.h"

static void show(const judge_mark *marks, size_t n)
{
    uint8_t lines[JUDGE_REPORT_SIZE];
    judge_filled f = judge_report(marks, n, lines, sizeof lines);
    if (f.refusal.number != JUDGE_NO_REFUSAL) {
        printf("refusal %u, record %u\n", (unsigned)f.refusal.number, (unsigned)f.refusal.line);
        return;
    }
    fwrite(lines, 1, f.length, stdout);
}

int main(void)
{
    static const judge_mark session[] = {
        {700, 2, 10, 10}, {31, 1, 7, 20}, {700, 1, 0, 20}, {31, 2, 10, 10}, {31, 2, 1, 10},
    };
    static const judge_mark wrong[] = {{31, 1, 7, 20}, {31, 2, 11, 10}};
    show(session, 5);
    show(session, 0);
    show(wrong, 2);
    return 0;
}
