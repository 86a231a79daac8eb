/*
 * The dual of a box from C, and back. The box is the duoprism of a square and a dyad; its dual has a vertex for each of
 * its faces and a face for each of its vertices. The dual of the dual is the box again, number by number. In the
 * project's folder, after 'rt staticlib flumedrac':
 *
 *   cc -std=c99 -Iinclude host/flumedrac/examples/dual.c target/staticlib/libflumedrac.a -o target/dual && target/dual
 */
#include <stdio.h>
#include <string.h>

#include "flumedrac.h"

#define LENGTH(slice) (sizeof(slice) / sizeof((slice)[0]))
#define DYAD d_counts, LENGTH(d_counts), d_ends, LENGTH(d_ends), d_inc, LENGTH(d_inc)

static const uint16_t d_counts[] = {1, 2, 1};
static const uint16_t d_ends[] = {0, 2, 3, 4, 5, 6, 8, 8};
static const uint16_t d_inc[] = {0, 1, 0, 0, 0, 0, 0, 1};

/* Three slices with room for any listing, and how much of them is used. */
typedef struct {
    uint16_t counts[FD_MAX_RANKS], ends[2 * FD_MAX_ELEMENTS], inc[FD_MAX_INCIDENCES];
    fd_built built;
} cell;

/* What a function is lent: a cell to be read, and a cell to be written. */
#define READ(c) (c).counts, (c).built.counts, (c).ends, (c).built.ends, (c).inc, (c).built.inc
#define WRITE(c) (c).counts, FD_MAX_RANKS, (c).ends, 2 * FD_MAX_ELEMENTS, (c).inc, FD_MAX_INCIDENCES

static cell square, box, dual, again;

/* How many vertices, edges and faces a cell has. */
static void say(const char *name, const cell *c)
{
    printf("%s: %d vertices, %d edges, %d faces", name, c->counts[1], c->counts[2], c->counts[3]);
}

/* What element 0 of a rank lists: its subs (FD_SUBS) or its sups (FD_SUPS). */
static void say_list(const char *name, const cell *c, int rank, int side)
{
    size_t before = 0, at;
    int r;
    for (r = 0; r < rank; r++)
        before += c->counts[r];
    at = 2 * before + (size_t)side;
    printf("  %s", name);
    for (r = at == 0 ? 0 : c->ends[at - 1]; r < c->ends[at]; r++)
        printf(" %d", c->inc[r]);
    printf("\n");
}

static int same(const cell *p, const cell *q)
{
    return p->built.counts == q->built.counts && p->built.ends == q->built.ends && p->built.inc == q->built.inc &&
           memcmp(p->counts, q->counts, p->built.counts * sizeof(uint16_t)) == 0 &&
           memcmp(p->ends, q->ends, p->built.ends * sizeof(uint16_t)) == 0 &&
           memcmp(p->inc, q->inc, p->built.inc * sizeof(uint16_t)) == 0;
}

int main(void)
{
    fd_built built;

    square.built = fd_duoprism(DYAD, DYAD, WRITE(square));
    box.built = fd_duoprism(READ(square), DYAD, WRITE(box));
    say("a box", &box);

    dual.built = fd_dual(READ(box), WRITE(dual));
    if (dual.built.answer.no != FD_ACCEPTED) {
        printf("\ndual: %s\n", fd_refusal_text(dual.built.answer.no));
        return 1;
    }
    say("\nits dual", &dual);
    printf("\n");
    say_list("face 0 of the box has the edges", &box, 3, FD_SUBS);
    say_list("vertex 0 of the dual lies on the edges", &dual, 1, FD_SUPS);

    again.built = fd_dual(READ(dual), WRITE(again));
    say("the dual of the dual", &again);
    printf(", %s\n", same(&again, &box) ? "the box itself" : "which is not the box");

    /* A dual takes as much room as what it is the dual of, and no less. */
    built = fd_dual(READ(box), dual.counts, box.built.counts, dual.ends, box.built.ends, dual.inc, box.built.inc - 1u);
    printf("with one number less for inc: %s (%d)\n", fd_refusal_text(built.answer.no), built.answer.no);
    return 0;
}
