/*
 * Tsunghawi from C: cubes, stickers, move text, coordinates, the ten tables and the search.
 * Link target/staticlib/libunit.a, which `tools/staticlib` writes.
 *
 * Every function returns a refusal's number, 0 for none (TSUNGHAWI_REFUSED_..); tsunghawi_check_tables and tsunghawi_solve return it in the
 * low byte of a word. A function that refuses writes nothing, but for 14, which leaves the table that it could not finish.
 *
 * Lent memory is a pointer and a length, counted in elements. Its caller answers for three things: so many elements are there, they have been
 * set, and what a call may write overlaps nothing else that is lent to it. A length that isn't the one asked for is refused with 10 before
 * all else, but for the limit of a search (9) and for text (7).
 *
 * A cube is 40 bytes: 8 corners, their 8 twists, 12 edges, their 12 flips, by place. A cube is in range if its corners are below 8 (else 4),
 * its edges below 12 (else 5), its twists below 3 and its flips below 2 (else 6). Moves are numbered
 * U U2 U' D D2 D' R R2 R' L L2 L' F F2 F' B B2 B', 0 to 17; another number is refused with 7.
 */
#ifndef TSUNGHAWI_H
#define TSUNGHAWI_H

#include <stddef.h>
#include <stdint.h>

#ifdef __cplusplus
extern "C" {
#endif

/* ---- lengths */

#define TSUNGHAWI_CUBE 40          /* bytes of a cube */
#define TSUNGHAWI_STICKERS 54      /* letters of a picture: U R F D L B, nine each */
#define TSUNGHAWI_LIST 31          /* bytes for each list that a search finds */
#define TSUNGHAWI_JUDGED 64        /* bytes for what the judge says */
#define TSUNGHAWI_MOVES 891780     /* entries, 16 bits each, of move tables 0 to 5 in one block */
#define TSUNGHAWI_PRUNES 4031685   /* bytes of pruning tables 6 to 9 in one block */

/* ---- refusals */

#define TSUNGHAWI_REFUSED_STICKERS 1     /* not 54 stickers */
#define TSUNGHAWI_REFUSED_LETTER 2       /* a sticker that is none of U R F D L B */
#define TSUNGHAWI_REFUSED_UNSOLVABLE 3   /* the cube read isn't solvable */
#define TSUNGHAWI_REFUSED_CORNER 4       /* a corner above 7 */
#define TSUNGHAWI_REFUSED_EDGE 5         /* an edge above 11 */
#define TSUNGHAWI_REFUSED_RANGE 6        /* a twist above 2 or a flip above 1; an arrangement outside a coordinate's domain; for a
                                            picture or a search, a cube that isn't solvable */
#define TSUNGHAWI_REFUSED_MOVE 7         /* text that isn't a move list, or a move above 17 */
#define TSUNGHAWI_REFUSED_INDEX 8        /* a number that isn't below its coordinate's count */
#define TSUNGHAWI_REFUSED_LIMIT 9        /* a search's limit above 31 */
#define TSUNGHAWI_REFUSED_LENGTH 10      /* lent memory of another length, or too short */
#define TSUNGHAWI_REFUSED_ENTRY 11       /* an entry of a lent move table isn't below its coordinate's count */
#define TSUNGHAWI_REFUSED_LAST_CHECK 12  /* the list found doesn't solve the cube, so that it isn't given */
#define TSUNGHAWI_REFUSED_TABLE 13       /* a table isn't true */
#define TSUNGHAWI_REFUSED_UNREACHED 14   /* a pruning table can't be built: some pair is out of reach, and holds 255 */
#define TSUNGHAWI_REFUSED_PICTURE 15     /* the stickers differ from the picture of the cube read */

/* ---- the words that tsunghawi_check_tables and tsunghawi_solve return */

/* The refusal's number, 0 for none. */
#define TSUNGHAWI_NUMBER(word) ((uint8_t)((word) & 0xFF))

/* Of a check that is refused with 13: the lowest bad table, and its lowest bad entry. */
#define TSUNGHAWI_TABLE(word) ((uint8_t)((word) >> 8 & 0xFF))
#define TSUNGHAWI_ENTRY(word) ((uint32_t)((word) >> 16))

/* Of a search: how it came out, the lengths of the two lists, and the entries made, whatever came out. */
#define TSUNGHAWI_KIND(word) ((uint8_t)((word) >> 8 & 0xFF))
#define TSUNGHAWI_N1(word) ((uint8_t)((word) >> 16 & 0xFF))
#define TSUNGHAWI_N2(word) ((uint8_t)((word) >> 24 & 0xFF))
#define TSUNGHAWI_COUNT(word) ((uint32_t)((word) >> 32))

/* The kinds, where the number is 0. */
#define TSUNGHAWI_SOLVED 0
#define TSUNGHAWI_NONE 1
#define TSUNGHAWI_SPENT 2

/* ---- cubes; a cube has 40 bytes */

/* The product of two cubes. Refused: 10; then the lowest of 4, 5 and 6 of either. */
uint8_t tsunghawi_mul(const uint8_t *a, size_t a_len, const uint8_t *b, size_t b_len, uint8_t *out, size_t out_len);

/* The cube after move m, in out of 40 bytes. Refused: 10; then the cube's 4, 5, 6; then 7. */
uint8_t tsunghawi_apply_move(const uint8_t *cube, size_t cube_len, uint8_t m, uint8_t *out, size_t out_len);

/* The cube after moves, any number of them, a byte each. Refused as by tsunghawi_apply_move. */
uint8_t tsunghawi_apply_moves(const uint8_t *cube, size_t cube_len, const uint8_t *moves, size_t moves_len, uint8_t *out,
                              size_t out_len);

/* Whether the cube is solved: 1 or 0 in out of 1 byte. Refused: 10; then 4, 5, 6. */
uint8_t tsunghawi_is_solved(const uint8_t *cube, size_t cube_len, uint8_t *out, size_t out_len);

/* Whether the cube is solvable: 1 or 0 in out of 1 byte. Refused: 10; then 4, 5, 6. */
uint8_t tsunghawi_is_solvable(const uint8_t *cube, size_t cube_len, uint8_t *out, size_t out_len);

/* Corner twists, edge flips, corner swaps and edge swaps, in out of 4 bytes. Refused: 10; then 4, 5, 6. */
uint8_t tsunghawi_counts(const uint8_t *cube, size_t cube_len, uint8_t *out, size_t out_len);

/* ---- moves; out is 1 byte. Refused: 10; then 7 */

/* The move that takes m back. */
uint8_t tsunghawi_get_inverse(uint8_t m, uint8_t *out, size_t out_len);

/* Whether the two turn opposite layers, the first of them U, R or F: 1 or 0. The name is kewb's. */
uint8_t tsunghawi_is_inverse(uint8_t m, uint8_t other, uint8_t *out, size_t out_len);

/* Whether the two turn one layer: 1 or 0. */
uint8_t tsunghawi_is_same_layer(uint8_t m, uint8_t other, uint8_t *out, size_t out_len);

/* Whether current may follow prev in a search: 1 or 0. After a move its own layer may not, nor U after D, R after L, F after B. */
uint8_t tsunghawi_is_move_available(uint8_t prev, uint8_t current, uint8_t *out, size_t out_len);

/* ---- stickers, as letters, with no closing 0 */

/* The cube, in out of 40 bytes, that the stickers are read as: what matches no piece is taken for the solved one. Refused: 10 for another
   length of out; then 1, 2, 3. For a cube that somebody holds use tsunghawi_read_strict. */
uint8_t tsunghawi_read_plain(const uint8_t *stickers, size_t stickers_len, uint8_t *out, size_t out_len);

/* The solvable cube whose picture the stickers are, and no other. Refused: 10 for another length of out; then 1, 2, 3, 15. */
uint8_t tsunghawi_read_strict(const uint8_t *stickers, size_t stickers_len, uint8_t *out, size_t out_len);

/* The picture of a solvable cube, in out of 54 bytes. Refused: 10; then 4, 5, 6. */
uint8_t tsunghawi_picture(const uint8_t *cube, size_t cube_len, uint8_t *out, size_t out_len);

/* ---- move text: words as U, U2 or U', with one space between; the empty text is the empty list */

/* The moves of a text, in the first places of list, and their count; the places after them stay. Refused: 7; then 10 where list has fewer
   places than there are moves. */
uint8_t tsunghawi_scramble_from_str(const uint8_t *text, size_t text_len, uint8_t *list, size_t list_len, size_t *count);

/* The text of a list of moves, in the first bytes of text, and its length; the bytes after it stay. Refused: 7; then 10 where text is
   shorter. Three bytes a move are always enough. */
uint8_t tsunghawi_scramble_to_str(const uint8_t *list, size_t list_len, uint8_t *text, size_t text_len, size_t *count);

/* Whether moves solve a cube: input is a line of stickers and a line of moves, of 1,024 bytes at most. Out, of 64 bytes, gets the text and
   zeros after it: `moves N`, `strokes N` and `solved yes` or `solved no`, a line each, or `refused N`; count gets the text's length.
   Refused: 10 for another length of out alone. What is refused of the input is in the text. */
uint8_t tsunghawi_judge(const uint8_t *input, size_t input_len, uint8_t *out, size_t out_len, size_t *count);

/* ---- coordinates: kind 0 co, 1 eo, 2 e_combo, 3 cp, 4 ud_ep, 5 e_ep, 6 ep; 8 places for 0 and 3, else 12 */

/* The number of an arrangement. Refused: 10, also for a kind above 6; then 4, 5 or 6 for one outside the domain. */
uint8_t tsunghawi_arrangement_to_index(uint8_t kind, const uint8_t *places, size_t places_len, uint32_t *number);

/* The arrangement of a number. Refused: 10, also for a kind above 6; then 8. */
uint8_t tsunghawi_index_to_arrangement(uint8_t kind, uint32_t number, uint8_t *places, size_t places_len);

/* ---- tables: 0 co, 1 eo, 2 e_combo, 3 cp, 4 ep, 5 e_ep, of 16 bits; 6 co_e, 7 eo_e, 8 cp_e, 9 ep_e, of bytes */

/* Move table t, 0 to 5, of 39366, 36864, 8910, 403200, 403200 or 240 entries. Refused: 10, also for a t above 5. */
uint8_t tsunghawi_get_move_table(uint8_t t, uint16_t *table, size_t table_len);

/* All six, one after the other, in moves of TSUNGHAWI_MOVES entries. Refused: 10. */
uint8_t tsunghawi_get_move_tables(uint16_t *moves, size_t moves_len);

/* Pruning table t, 6 to 9, of 1082565, 1013760, 967680 or 967680 bytes, by its two move tables: 0 and 2 for 6, 1 and 2 for 7, 3 and 5 for
   8, 4 and 5 for 9. Refused: 10, also for another t; then 11; then 14, after which the table holds what was found, and 255 elsewhere. */
uint8_t tsunghawi_get_prune_table(uint8_t t, const uint16_t *first, size_t first_len, const uint16_t *second, size_t second_len,
                                  uint8_t *table, size_t table_len);

/* The same by two move tables of rows1 and rows2 rows, 1 to 65,536 each, and of moves columns, 256 at most: rows1 * rows2 bytes. */
uint8_t tsunghawi_get_pairs_table(const uint16_t *first, size_t first_len, const uint16_t *second, size_t second_len, uint8_t *table,
                                  size_t table_len, size_t rows1, size_t rows2, size_t moves);

/* All four, in prunes of TSUNGHAWI_PRUNES bytes, by the block of the six. Refused as by tsunghawi_get_prune_table. */
uint8_t tsunghawi_get_prune_tables(const uint16_t *moves, size_t moves_len, uint8_t *prunes, size_t prunes_len);

/* Whether all ten are true, as a word: TSUNGHAWI_NUMBER is 0, 10, or 13 with TSUNGHAWI_TABLE and TSUNGHAWI_ENTRY. */
uint64_t tsunghawi_check_tables(const uint16_t *moves, size_t moves_len, const uint8_t *prunes, size_t prunes_len);

/* ---- the search */

/* Turns that solve a cube, fewer than limit (31 at most) in all, with no more than budget entries made, over both blocks of tables. The
   word's TSUNGHAWI_NUMBER is 0, or refused: 9; then 10; then 4, 5, 6; then, as the search meets them, 11 or 12. Of 0, TSUNGHAWI_KIND says
   whether it is solved, there is none, or the budget is spent. Only solved writes: one and two, of TSUNGHAWI_LIST bytes each, get the lists
   of TSUNGHAWI_N1 and TSUNGHAWI_N2 moves, to be turned one after the other, and zeros after them. */
uint64_t tsunghawi_solve(const uint8_t *cube, size_t cube_len, uint8_t limit, uint32_t budget, const uint16_t *moves, size_t moves_len,
                         const uint8_t *prunes, size_t prunes_len, uint8_t *one, size_t one_len, uint8_t *two, size_t two_len);

#ifdef __cplusplus
}
#endif

#endif
