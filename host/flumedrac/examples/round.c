/*
 * Walks round a mast from C, from face to face and from cell to cell. The mast is an edge with six wedges round it,
 * which are tetrahedra; two pyramids over the hexagon, one from each end of the mast, close them off. In the project's
 * folder, after 'rt staticlib flumedrac':
 *
 *   cc -std=c99 -Iinclude host/flumedrac/examples/round.c target/staticlib/libflumedrac.a -o target/round
 *   target/round
 */
#include <stdio.h>
#include <stdlib.h>
#include <string.h>

#include "flumedrac.h"

#define LENGTH(slice) (sizeof(slice) / sizeof((slice)[0]))
#define DYAD d_counts, LENGTH(d_counts), d_ends, LENGTH(d_ends), d_inc, LENGTH(d_inc)
#define HEXAGON h_counts, LENGTH(h_counts), h_ends, LENGTH(h_ends), h_inc, LENGTH(h_inc)
#define OUTPUT counts, LENGTH(counts), ends, LENGTH(ends), inc, LENGTH(inc)
#define GRID counts, grid.counts, ends, grid.ends, inc, grid.inc

static const uint16_t d_counts[] = {1, 2, 1};
static const uint16_t d_ends[] = {0, 2, 3, 4, 5, 6, 8, 8};
static const uint16_t d_inc[] = {0, 1, 0, 0, 0, 0, 0, 1};

static const uint16_t h_counts[] = {1, 6, 6, 1};
static const uint16_t h_ends[] = {0,  6,  7,  9,  10, 12, 13, 15, 16, 18, 19, 21, 22, 24,
                                  26, 27, 29, 30, 32, 33, 35, 36, 38, 39, 41, 42, 48, 48};
static const uint16_t h_inc[] = {0, 1, 2, 3, 4, 5, 0, 0, 1, 0, 0, 2, 0, 2, 3, 0, 3, 4, 0, 4, 5, 0, 1, 5,
                                 0, 1, 0, 0, 5, 0, 1, 2, 0, 2, 3, 0, 3, 4, 0, 4, 5, 0, 0, 1, 2, 3, 4, 5};

/* Room for any listing; the grid is built here. */
static uint16_t counts[FD_MAX_RANKS], ends[2 * FD_MAX_ELEMENTS], inc[FD_MAX_INCIDENCES];

/* Where the two ends of an element of the grid stand. Its subs begin at the end before them, its sups at the first. */
static const uint16_t *ends_of(int rank, int index)
{
    int before = 0;
    while (rank > 0)
        before += counts[--rank];
    return ends + 2 * (before + index);
}

/* Says what is refused, and ends there. */
static void expect(fd_answer answer)
{
    if (answer.no != FD_ACCEPTED) {
        puts(fd_refusal_text(answer.no));
        exit(1);
    }
}

int main(void)
{
    fd_built grid = fd_duopyramid(DYAD, HEXAGON, OUTPUT);
    uint16_t flag[6] = {0}, first[6];
    int faces = 0, cells = 0;
    expect(grid.answer);
    expect(fd_closed(GRID));
    printf("a closed grid: %d cells, %d faces, %d edges\n", counts[4], counts[3], counts[2]);

    /* The first flag: the edge that has six faces, its first vertex, its first face, and that face's first cell. */
    while (flag[2] + 1 < counts[2] && ends_of(2, flag[2])[1] - ends_of(2, flag[2])[0] != 6)
        flag[2]++;
    flag[1] = inc[ends_of(2, flag[2])[-1]];
    flag[3] = inc[ends_of(2, flag[2])[0]];
    flag[4] = inc[ends_of(3, flag[3])[0]];
    memcpy(first, flag, sizeof(first));
    printf("round edge %d, from face %d of cell %d:\n", flag[2], flag[3], flag[4]);

    do {
        /* The other face of this cell at the mast, and then the cell across it. */
        fd_changed turned = fd_change(GRID, flag, LENGTH(flag), 3);
        fd_changed crossed = fd_change(GRID, turned.flag, LENGTH(flag), 4);
        expect(turned.answer);
        expect(crossed.answer);
        printf("  in cell %d from face %d to face %d\n", crossed.taken, turned.taken, turned.put);
        printf("  across face %d from cell %d to cell %d\n", turned.put, crossed.taken, crossed.put);
        faces++;
        cells++;
        memcpy(flag, crossed.flag, sizeof(flag));
    } while (memcmp(flag, first, sizeof(flag)) != 0);
    printf("back again after %d faces and %d cells\n", faces, cells);
    return 0;
}
