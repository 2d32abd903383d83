/* Solves a cube: `solve STICKERS` builds the tables, reads the 54 stickers strictly, searches, and prints the turns. */
#include <stdio.h>
#include <string.h>

#include "tsunghawi.h"

static uint16_t moves[TSUNGHAWI_MOVES];
static uint8_t prunes[TSUNGHAWI_PRUNES];

/* Says a refusal; whether there was one. */
static int refused(uint8_t number)
{
    if (number != 0)
        printf("refused %d\n", number);
    return number != 0;
}

/* Prints the turns of both lists in one line. */
static int print_turns(const uint8_t *list, size_t n)
{
    uint8_t text[3 * 2 * TSUNGHAWI_LIST];
    size_t count = 0;

    if (refused(tsunghawi_scramble_to_str(list, n, text, sizeof text, &count)))
        return 1;
    printf("solution %.*s\n", (int)count, (const char *)text);
    return 0;
}

static int solve(const uint8_t *cube)
{
    uint8_t one[TSUNGHAWI_LIST] = {0}, two[TSUNGHAWI_LIST] = {0}, all[2 * TSUNGHAWI_LIST];
    uint64_t word = tsunghawi_solve(cube, TSUNGHAWI_CUBE, 23, UINT32_MAX, moves, TSUNGHAWI_MOVES, prunes, TSUNGHAWI_PRUNES,
                                    one, sizeof one, two, sizeof two);

    if (refused(TSUNGHAWI_NUMBER(word)))
        return 1;
    if (TSUNGHAWI_KIND(word) != TSUNGHAWI_SOLVED) {
        puts(TSUNGHAWI_KIND(word) == TSUNGHAWI_NONE ? "none" : "spent");
        return 1;
    }
    memcpy(all, one, TSUNGHAWI_N1(word));
    memcpy(all + TSUNGHAWI_N1(word), two, TSUNGHAWI_N2(word));
    if (print_turns(all, (size_t)TSUNGHAWI_N1(word) + TSUNGHAWI_N2(word)))
        return 1;
    printf("entries %lu\n", (unsigned long)TSUNGHAWI_COUNT(word));
    return 0;
}

int main(int argc, char **argv)
{
    uint8_t cube[TSUNGHAWI_CUBE] = {0};

    if (argc != 2) {
        fputs("usage: solve STICKERS\n", stderr);
        return 2;
    }
    if (refused(tsunghawi_read_strict((const uint8_t *)argv[1], strlen(argv[1]), cube, sizeof cube)))
        return 1;
    if (refused(tsunghawi_get_move_tables(moves, TSUNGHAWI_MOVES)))
        return 1;
    if (refused(tsunghawi_get_prune_tables(moves, TSUNGHAWI_MOVES, prunes, TSUNGHAWI_PRUNES)))
        return 1;
    return solve(cube);
}
