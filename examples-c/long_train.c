/* A long train. Three sections in a row: a signal from 1 to 2, and one from 2 to 3, at stop. Train 1 stands over sections 1 and 2, train 2 in
 * section 3. The situation is written as a U file and judged; then with the second signal at proceed; then under the letter S, which the
 * writer refuses.
 *
 *   cc -Iinclude examples-c/long_train.c target/staticlib/libjudge.a -o long_train && ./long_train */
#include <stdio.h>

#include "judge.h"

static judge_situation station(void)
{
    judge_situation s = {.sections = 3, .elements = 2, .trains = 2, .is_long = 1};
    s.element_first[0] = 1;
    s.element_second[0] = 2;
    s.element_state[0] = 1;
    s.element_first[1] = 2;
    s.element_second[1] = 3;
    s.element_state[1] = 2;
    s.train_size[0] = 2; /* train 1: sections 1 and 2 */
    s.train_section[0] = 1;
    s.train_section[1] = 2;
    s.train_size[1] = 1; /* train 2: section 3 */
    s.train_section[4] = 3;
    return s;
}

static void judge(const judge_situation *s)
{
    uint8_t file[JUDGE_LINE_SIZE * 5];
    uint16_t first[JUDGE_MAX_SECTIONS], second[JUDGE_MAX_SECTIONS];
    judge_refusal q = judge_write(*s, file, sizeof file).refusal;
    if (q.number != JUDGE_NO_REFUSAL) {
        printf("refusal %u, line %u\n", (unsigned)q.number, (unsigned)q.line);
        return;
    }
    fwrite(file, 1, sizeof file, stdout);
    judge_verdict_answer v = judge_verdict(file, sizeof file, first, JUDGE_MAX_SECTIONS, second, JUDGE_MAX_SECTIONS);
    printf("%s, entries %lu, looks %lu\n", v.dangerous ? "dangerous" : "safe", (unsigned long)v.entries, (unsigned long)v.looks);
    if (v.dangerous) {
        printf("train %u from section %u to section %u\n", (unsigned)v.first_train, (unsigned)first[0], (unsigned)v.meeting);
        printf("train %u from section %u to section %u\n", (unsigned)v.second_train, (unsigned)second[0], (unsigned)v.meeting);
    }
}

int main(void)
{
    judge_situation s = station();
    judge(&s);
    s.element_state[1] = 1;
    judge(&s);
    s.is_long = 0;
    judge(&s);
    return 0;
}
