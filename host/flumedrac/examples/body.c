/*
 * Tests from C whether cells are one body. The duoprism of two dyads, a square, is one. The duocomb of a dyad and a
 * triangle is two separate triangles under one top: closed does not see that, one_body does. In the project's folder,
 * after 'rt staticlib flumedrac':
 *
 *   cc -std=c99 -Iinclude host/flumedrac/examples/body.c target/staticlib/libflumedrac.a -o target/body && target/body
 */
#include <stdio.h>

#include "flumedrac.h"

#define LENGTH(slice) (sizeof(slice) / sizeof((slice)[0]))
#define DYAD d_counts, LENGTH(d_counts), d_ends, LENGTH(d_ends), d_inc, LENGTH(d_inc)
#define TRIANGLE t_counts, LENGTH(t_counts), t_ends, LENGTH(t_ends), t_inc, LENGTH(t_inc)
#define OUTPUT counts, LENGTH(counts), ends, LENGTH(ends), inc, LENGTH(inc)

static const uint16_t d_counts[] = {1, 2, 1};
static const uint16_t d_ends[] = {0, 2, 3, 4, 5, 6, 8, 8};
static const uint16_t d_inc[] = {0, 1, 0, 0, 0, 0, 0, 1};

static const uint16_t t_counts[] = {1, 3, 3, 1};
static const uint16_t t_ends[] = {0, 3, 4, 6, 7, 9, 10, 12, 14, 15, 17, 18, 20, 21, 24, 24};
static const uint16_t t_inc[] = {0, 1, 2, 0, 0, 1, 0, 0, 2, 0, 1, 2, 0, 1, 0, 0, 2, 0, 1, 2, 0, 0, 1, 2};

/* Room for any listing, and for 100 flags of rank 3: four numbers and a byte for each. */
static uint16_t counts[FD_MAX_RANKS], ends[2 * FD_MAX_ELEMENTS], inc[FD_MAX_INCIDENCES];
static uint16_t table[4 * 100];
static uint8_t orientations[100];

/* What the two tests say of the listing in counts, ends and inc. */
static void test(const char *name, fd_built cell)
{
    fd_answer closed = fd_closed(counts, cell.counts, ends, cell.ends, inc, cell.inc);
    fd_searched body = fd_one_body(counts, cell.counts, ends, cell.ends, inc, cell.inc, table, LENGTH(table),
                                   orientations, LENGTH(orientations));
    printf("%s: %d vertices, %d edges\n", name, counts[1], counts[2]);
    printf("  closed: %s\n", fd_refusal_text(closed.no));
    printf("  one_body: %s", fd_refusal_text(body.answer.no));
    if (body.answer.no == FD_ACCEPTED)
        printf(", %d flags", body.count);
    printf("\n");
}

int main(void)
{
    test("a duoprism", fd_duoprism(DYAD, DYAD, OUTPUT));
    test("a duocomb", fd_duocomb(DYAD, TRIANGLE, OUTPUT));
    return 0;
}
