/*
 * Builds a cell from C out of two that are written as texts, and writes it as a text: a triangle and a dyad are read,
 * their duoprism is a prism. Its text is written twice, first to a slice that is too short, where no byte changes. In
 * the project's folder, after 'rt staticlib flumedrac':
 *
 *   cc -std=c99 -Iinclude host/flumedrac/examples/write.c target/staticlib/libflumedrac.a -o target/write
 *   target/write
 */
#include <stdio.h>

#include "flumedrac.h"

static const char triangle[] =
    "rank=3\n"
    "count=1\nsubs=\n"
    "count=3\nsubs=0\nsubs=0\nsubs=0\n"
    "count=3\nsubs=0,1\nsubs=0,2\nsubs=1,2\n"
    "count=1\nsubs=0,1,2\n";

static const char dyad[] = "rank=2\ncount=1\nsubs=\ncount=2\nsubs=0\nsubs=0\ncount=1\nsubs=0,1\n";

/* Three slices with room for any listing, and how much of them is used. */
typedef struct {
    uint16_t counts[FD_MAX_RANKS], ends[2 * FD_MAX_ELEMENTS], inc[FD_MAX_INCIDENCES];
    fd_built built;
} cell;

/* What a function is lent: a cell to be read, and a cell to be written. */
#define READ(c) (c).counts, (c).built.counts, (c).ends, (c).built.ends, (c).inc, (c).built.inc
#define WRITE(c) (c).counts, FD_MAX_RANKS, (c).ends, 2 * FD_MAX_ELEMENTS, (c).inc, FD_MAX_INCIDENCES

static cell p, q, prism;

/* Room for any text. */
static uint8_t text[FD_MAX_TEXT];

int main(void)
{
    fd_written written;

    /* The 0 that ends a string is no part of a text. What is refused leaves a cell without ranks, refused in turn. */
    p.built = fd_read_text((const uint8_t *)triangle, sizeof(triangle) - 1, WRITE(p));
    q.built = fd_read_text((const uint8_t *)dyad, sizeof(dyad) - 1, WRITE(q));
    prism.built = fd_duoprism(READ(p), READ(q), WRITE(prism));
    printf("duoprism: %s\n", fd_refusal_text(prism.built.answer.no));

    written = fd_write_text(READ(prism), text, 100);
    printf("write_text to 100 bytes: %s (%d)\n", fd_refusal_text(written.answer.no), written.answer.no);

    written = fd_write_text(READ(prism), text, FD_MAX_TEXT);
    if (written.answer.no != FD_ACCEPTED) {
        printf("write_text: %s\n", fd_refusal_text(written.answer.no));
        return 1;
    }
    printf("write_text: %lu bytes\n", (unsigned long)written.length);
    fwrite(text, 1, written.length, stdout);
    return 0;
}
