/* Can it be saved at all? A row of sections in which each step is under an open signal: 200 of them, far more than the settings question
 * takes. In the middle of the row stands an open turnout, and more turnouts can be added.
 *
 *   cc -Iinclude examples-c/can_be_safe.c target/staticlib/libjudge.a -o can_be_safe && ./can_be_safe */
#include <stdio.h>
#include <string.h>

#include "judge.h"

enum { STEPS = 200 };

static char file[JUDGE_MAX_FILE + 1];

static void line(char letter, const int *fields, int filled)
{
    char *at = file + strlen(file);
    *at++ = letter;
    for (int i = 0; i < 4; i++)
        at += i < filled ? sprintf(at, "%5d", fields[i]) : sprintf(at, "     ");
    sprintf(at, "\n");
}

/* Sections 1 to 201 in a row. Each turnout has its stem at a section of the row, from `stem` on, and its legs outside; only where `led` is 1, the
 * legs of the first are the two last sections of the row. The trains stand in the stem of the first turnout and in section `other`. */
static void draw(int turnouts, int stem, int led, int other)
{
    file[0] = '\0';
    line('S', (int[]){STEPS + 1 + 2 * turnouts, 0, STEPS + turnouts, 2}, 4);
    for (int i = 1; i <= STEPS; i++)
        line('L', (int[]){i, i + 1, 0}, 3);
    for (int i = 0; i < turnouts; i++) {
        int leg = STEPS + 2 + 2 * i;
        if (i == 0 && led)
            leg = STEPS;
        line('D', (int[]){stem + i, leg, leg + 1, 0}, 4);
    }
    line('T', (int[]){stem}, 1);
    line('T', (int[]){other}, 1);
}

static void ask(const char *what)
{
    static uint8_t setting[JUDGE_MAX_ELEMENTS];
    judge_yes_no a = judge_can_be_safe((const uint8_t *)file, strlen(file));
    if (a.refusal.number != JUDGE_NO_REFUSAL)
        printf("%s: refusal %u, line %u\n", what, (unsigned)a.refusal.number, (unsigned)a.refusal.line);
    else
        printf("%s: %s\n", what, a.yes ? "yes" : "no");
    judge_settings_answer b = judge_settings((const uint8_t *)file, strlen(file), setting, sizeof setting);
    if (b.refusal.number != JUDGE_NO_REFUSAL)
        printf("    the settings question: refusal %u, line %u\n", (unsigned)b.refusal.number, (unsigned)b.refusal.line);
    else
        printf("    the settings question: %u safe\n", (unsigned)b.safe);
}

int main(void)
{
    draw(1, 100, 0, 150);
    ask("200 open signals, one open turnout");
    draw(1, 100, 1, STEPS);
    ask("the turnout leads to the other train, or past it");
    draw(1, 100, 1, 100);
    ask("both trains in one section");
    draw(12, 100, 0, 150);
    ask("twelve open turnouts");
    draw(13, 100, 0, 150);
    ask("thirteen open turnouts");
    return 0;
}
