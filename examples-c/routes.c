/* The table of conflicts of four routes in station K of document 01: a line for each route, a digit for each route that it is compared with.
 *
 *   cc -Iinclude examples-c/routes.c target/staticlib/libjudge.a -o routes && ./routes */
#include <stdio.h>
#include <string.h>

#include "judge.h"

static const char station[] =
    "S    5    1    4    2\n"
    "P    2    1          \n"
    "L    1    2    1     \n"
    "D    2    3    4    1\n"
    "L    3    5    1     \n"
    "L    4    5    1     \n"
    "T    1               \n"
    "T    4               \n";

/* 1: sections 1 2 3, turnout straight; 2: 1 2 4, diverted; 3: 3 5; 4: 4 5, diverted. */
static const char routes[] =
    "R    1    1    3    1\n"
    "K    1               \n"
    "K    2               \n"
    "K    3               \n"
    "W    2    1          \n"
    "R    2    1    3    1\n"
    "K    1               \n"
    "K    2               \n"
    "K    4               \n"
    "W    2    2          \n"
    "R    3    3    2    0\n"
    "K    3               \n"
    "K    5               \n"
    "R    4    4    2    1\n"
    "K    4               \n"
    "K    5               \n"
    "W    2    2          \n";

static judge_filled ask(const char *file, size_t m, uint8_t *table, size_t room)
{
    return judge_routes((const uint8_t *)station, sizeof station - 1, (const uint8_t *)file, m, table, room);
}

int main(void)
{
    uint8_t table[JUDGE_ROUTES_SIZE];
    judge_filled f = ask(routes, sizeof routes - 1, table, sizeof table);
    if (f.refusal.number != JUDGE_NO_REFUSAL) {
        printf("refusal %u, line %u\n", (unsigned)f.refusal.number, (unsigned)f.refusal.line);
        return 1;
    }
    size_t n = 0;
    while (n * n < f.length)
        n++;
    for (size_t a = 1; a <= n; a++) {
        printf("route %zu:", a);
        for (size_t b = 1; b <= n; b++)
            printf(" %u", (unsigned)table[(a - 1) * n + b - 1]);
        printf("\n");
    }

    /* The same without its last byte, and with sections 3 and 2 of route 1 exchanged: no line stands over (1, 3). */
    f = ask(routes, sizeof routes - 2, table, sizeof table);
    printf("cut: refusal %u, line %u\n", (unsigned)f.refusal.number, (unsigned)f.refusal.line);
    char other[sizeof routes];
    memcpy(other, routes, sizeof routes);
    other[2 * JUDGE_LINE_SIZE + 5] = '3';
    other[3 * JUDGE_LINE_SIZE + 5] = '2';
    f = ask(other, sizeof other - 1, table, sizeof table);
    printf("no line over a step: refusal %u, line %u\n", (unsigned)f.refusal.number, (unsigned)f.refusal.line);
    f = ask(routes, sizeof routes - 1, table, 15);
    printf("a table of 15 bytes: refusal %u, line %u\n", (unsigned)f.refusal.number, (unsigned)f.refusal.line);
    return 0;
}
