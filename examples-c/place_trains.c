/* Prints the train sections that paper numbers give in a station of twelve sections. The last state of a call may be the paper number of the
 * next: the draws then go on.
 *
 *   cc -Iinclude examples-c/place_trains.c target/staticlib/libjudge.a -o place_trains && ./place_trains */
#include <inttypes.h>
#include <stdio.h>

#include "judge.h"

/* Prints the sections of so many trains, and returns the last state. */
static uint64_t print_sections(uint64_t paper, uint16_t trains)
{
    uint16_t list[JUDGE_MAX_TRAINS];
    judge_placed p = judge_place(paper, 12, trains, list, JUDGE_MAX_TRAINS);
    printf("paper %" PRIu64 ", %u trains:", paper, (unsigned)trains);
    if (p.refusal.number != JUDGE_NO_REFUSAL) {
        printf(" refusal %u\n", (unsigned)p.refusal.number);
        return paper;
    }
    for (unsigned t = 0; t < trains; t++)
        printf(" %u", (unsigned)list[t]);
    printf("; last state %" PRIu64 "\n", p.state);
    return p.state;
}

int main(void)
{
    uint64_t state = print_sections(1, 4);
    print_sections(state, 4);
    print_sections(2026, 12);
    print_sections(2026, 13);
    return 0;
}
