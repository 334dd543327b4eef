/* Marks drawings on station K: a right one, the same in the other order, with a section twice, and three that are wrong.
 *
 *   cc -Iinclude examples-c/drawing.c target/staticlib/libjudge.a -o drawing && ./drawing */
#include <stdio.h>

#include "judge.h"

static const char station[] =
    "S    5    1    4    2\n"
    "P    2    1          \n"
    "L    1    2    1     \n"
    "D    2    3    4    1\n"
    "L    3    5    1     \n"
    "L    4    5    1     \n"
    "T    1               \n"
    "T    4               \n";

static void mark(const char *what, uint16_t i, const uint16_t *first, size_t n, uint16_t j, const uint16_t *second, size_t m)
{
    judge_yes_no a = judge_drawing((const uint8_t *)station, sizeof station - 1, i, j, first, n, second, m);
    if (a.refusal.number != JUDGE_NO_REFUSAL)
        printf("%s: refusal %u, line %u\n", what, (unsigned)a.refusal.number, (unsigned)a.refusal.line);
    else
        printf("%s: %s\n", what, a.yes ? "yes" : "no");
}

int main(void)
{
    static const uint16_t path1[] = {1, 2, 3, 5}, path2[] = {4, 5}, around[] = {1, 2, 1, 2, 3, 5}, against[] = {4, 2};
    mark("train 1 by 1 2 3 5, train 2 by 4 5", 1, path1, 4, 2, path2, 2);
    mark("the trains in the other order", 2, path2, 2, 1, path1, 4);
    mark("a section twice", 1, around, 6, 2, path2, 2);
    mark("an end of its own", 1, path1, 3, 2, path2, 2);
    mark("over the leg that is not set", 1, path1, 2, 2, against, 2);
    mark("one train twice", 1, path1, 4, 1, path1, 4);
    mark("an empty list", 1, path1, 0, 2, path2, 2);
    mark("train 3", 1, path1, 4, 3, path2, 2);
    return 0;
}
