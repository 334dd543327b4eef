/* A candidate changes her mind: what stands of a short log of answers, what each standing answer claims, and the refusal of a log in which
 * a sequence comes twice.
 *
 *   cc -Iinclude examples-c/standing_answers.c target/staticlib/libjudge.a -o standing_answers && ./standing_answers */
#include <stdio.h>
#include <stdlib.h>
#include <string.h>

#include "judge.h"

/* Candidate 7 answers question 1 three times, and the answer with sequence 2 comes in last. Candidate 3 withdraws the answer to question 2. */
static const char log_lines[] =
    "C    7    1    1    5\n"
    "C    3    2    8   17\n"
    "C    7    1    3    8\n"
    "C    3    1    4 4097\n"
    "C    3    2    9    0\n"
    "C    7    1    2    0\n";

static const char again[] = "C    7    1    3    9\n";

static void show(const char *log, size_t n)
{
    uint8_t lines[JUDGE_MAX_LOG];
    judge_filled f = judge_standing_answers((const uint8_t *)log, n, lines, sizeof lines);
    if (f.refusal.number != JUDGE_NO_REFUSAL) {
        printf("refusal %u, line %u\n", (unsigned)f.refusal.number, (unsigned)f.refusal.line);
        return;
    }
    for (size_t at = 0; at < f.length; at += JUDGE_LINE_SIZE) {
        char answer[6];
        memcpy(answer, lines + at + 16, 5);
        answer[5] = '\0';
        /* An answer claims one safe setting fewer than its number. */
        printf("%.21s  claims %d safe settings\n", (const char *)lines + at, atoi(answer) - 1);
    }
}

int main(void)
{
    char longer[sizeof log_lines + sizeof again];
    show(log_lines, sizeof log_lines - 1);
    snprintf(longer, sizeof longer, "%s%s", log_lines, again);
    show(longer, strlen(longer));
    return 0;
}
