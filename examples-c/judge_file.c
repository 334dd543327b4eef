/* Judges the station file named on the command line, or standard input: prints the verdict with both paths where no element is open, else
 * the chosen setting; or the refusal. Exit status 0 for an answer, 1 for a refusal, 2 where the file cannot be read.
 *
 *   cc -Iinclude examples-c/judge_file.c target/staticlib/libjudge.a -o judge_file
 *   ./judge_file STATION */
#include <stdio.h>

#include "judge.h"

static int refused(judge_refusal q)
{
    printf("refusal %u, line %u: %s\n", (unsigned)q.number, (unsigned)q.line, judge_refusal_text(q.number));
    return 1;
}

static void print_path(unsigned train, const uint16_t *path, size_t length)
{
    printf("train %u:", train);
    for (size_t i = 0; i < length; i++)
        printf(" %u", (unsigned)path[i]);
    printf("\n");
}

static int verdict(const uint8_t *file, size_t n)
{
    uint16_t first[JUDGE_MAX_SECTIONS], second[JUDGE_MAX_SECTIONS];
    judge_verdict_answer v = judge_verdict(file, n, first, JUDGE_MAX_SECTIONS, second, JUDGE_MAX_SECTIONS);
    if (v.refusal.number != JUDGE_NO_REFUSAL)
        return refused(v.refusal);
    printf("%s, entries %lu, looks %lu\n", v.dangerous ? "dangerous" : "safe", (unsigned long)v.entries, (unsigned long)v.looks);
    if (v.dangerous) {
        printf("meeting in section %u\n", (unsigned)v.meeting);
        print_path(v.first_train, first, v.first_length);
        print_path(v.second_train, second, v.second_length);
        judge_part p = judge_shorter(first, JUDGE_MAX_SECTIONS, v.first_length, second, JUDGE_MAX_SECTIONS, v.second_length);
        printf("the shorter path is that of train %u\n", (unsigned)(p.list == 1 ? v.first_train : v.second_train));
    }
    return 0;
}

static int settings(const uint8_t *file, size_t n, unsigned elements)
{
    uint8_t chosen[JUDGE_MAX_ELEMENTS];
    judge_settings_answer a = judge_settings(file, n, chosen, sizeof chosen);
    if (a.refusal.number != JUDGE_NO_REFUSAL)
        return refused(a.refusal);
    if (a.safe == 0) {
        printf("no safe setting\n");
        return 0;
    }
    printf("%u safe settings, proceed count %u, chosen:", (unsigned)a.safe, (unsigned)a.proceed);
    for (unsigned e = 0; e < elements; e++)
        printf(" %u", (unsigned)chosen[e]);
    printf("\n");
    return 0;
}

int main(int argc, char **argv)
{
    static uint8_t file[JUDGE_MAX_FILE + 1]; /* one byte more than the longest file: enough to know that it is too long */
    FILE *in = argc > 1 ? fopen(argv[1], "rb") : stdin;
    if (in == NULL) {
        perror(argv[1]);
        return 2;
    }
    size_t n = fread(file, 1, sizeof file, in);
    if (ferror(in)) {
        perror(argc > 1 ? argv[1] : "standard input");
        return 2;
    }
    judge_reading r = judge_read(file, n);
    if (r.refusal.number != JUDGE_NO_REFUSAL)
        return refused(r.refusal);
    for (unsigned e = 0; e < r.situation.elements; e++)
        if (r.situation.element_state[e] == 0)
            return settings(file, n, r.situation.elements);
    return verdict(file, n);
}
