/* The buttons of a desk pressed, for a station with two elements: signal 1 is open, signal 2 is fixed at stop.
 *
 *   cc -Iinclude examples-c/desk.c target/staticlib/libjudge.a -o desk && ./desk */
#include <stdio.h>

#include "judge.h"

static const char station[] =
    "S    3    0    2    1\n"
    "L    1    2    0     \n"
    "L    2    3    2     \n"
    "T    1               \n";

/* Writes a byte, and prints what is then read at addresses 0 to 5, the interrupt line and the states of the elements. */
static judge_desk press(judge_desk desk, uint16_t address, uint8_t byte, const char *meaning)
{
    judge_desk_answer a = judge_desk_write(desk, address, byte);
    printf("%u <- %-3u", (unsigned)address, (unsigned)byte);
    for (uint16_t i = 0; i <= 5; i++)
        printf(" %3u", (unsigned)judge_desk_read(a.desk, i).byte);
    printf("  %-4s ", judge_desk_interrupt(a.desk) ? "high" : "low");
    for (unsigned e = 0; e < a.desk.elements; e++)
        printf(" %u", (unsigned)a.desk.element_state[e]);
    printf("   %s", meaning);
    if (a.refusal.number != JUDGE_NO_REFUSAL)
        printf(": refusal %u, line %u", (unsigned)a.refusal.number, (unsigned)a.refusal.line);
    printf("\n");
    return a.desk;
}

int main(void)
{
    judge_desk_answer start = judge_desk_start((const uint8_t *)station, sizeof station - 1);
    if (start.refusal.number != JUDGE_NO_REFUSAL) {
        printf("refusal %u, line %u\n", (unsigned)start.refusal.number, (unsigned)start.refusal.line);
        return 1;
    }
    judge_desk desk = start.desk;
    printf("write     0   1   2   3   4   5  line  elements\n");
    desk = press(desk, 0, 129, "the interrupt is enabled; control keeps all bits");
    desk = press(desk, 2, 1, "element 1");
    desk = press(desk, 4, 2, "stop");
    desk = press(desk, 5, 1, "set: a change is pending");
    desk = press(desk, 2, 2, "element 2");
    desk = press(desk, 5, 1, "set: failed, as the file fixed it; still pending");
    desk = press(desk, 1, 0, "the status ignores writes");
    desk = press(desk, 9, 7, "no such address");
    desk = press(desk, 5, 2, "clear");
    desk = press(desk, 2, 1, "element 1 again");
    desk = press(desk, 5, 1, "set to the state that it has: pending");
    desk = press(desk, 0, 0, "the interrupt is no longer enabled");
    return 0;
}
