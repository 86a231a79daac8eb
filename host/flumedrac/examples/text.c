/*
 * Tests a cell from C that is written as a text: a tetrahedron whose bottom face is missing. check_text says that it is
 * not closed; to know where, the text is read into three slices, and closed is asked about them. In the project's
 * folder, after 'rt staticlib flumedrac':
 *
 *   cc -std=c99 -Iinclude host/flumedrac/examples/text.c target/staticlib/libflumedrac.a -o target/text && target/text
 */
#include <stdio.h>

#include "flumedrac.h"

/* One minimal element, four vertices, six edges of two vertices, three faces of three edges, the whole. */
static const char text[] =
    "rank=4\n"
    "count=1\nsubs=\n"
    "count=4\nsubs=0\nsubs=0\nsubs=0\nsubs=0\n"
    "count=6\nsubs=0,1\nsubs=0,2\nsubs=0,3\nsubs=1,2\nsubs=1,3\nsubs=2,3\n"
    "count=3\nsubs=0,1,3\nsubs=0,2,4\nsubs=1,2,5\n"
    "count=1\nsubs=0,1,2\n";

/* Room for any listing. */
static uint16_t counts[FD_MAX_RANKS], ends[2 * FD_MAX_ELEMENTS], inc[FD_MAX_INCIDENCES];

int main(void)
{
    const uint8_t *bytes = (const uint8_t *)text;
    const size_t length = sizeof(text) - 1; /* without the 0 that ends a string */
    uint16_t no = fd_check_text(bytes, length);
    fd_built read = fd_read_text(bytes, length, counts, FD_MAX_RANKS, ends, 2 * FD_MAX_ELEMENTS, inc, FD_MAX_INCIDENCES);
    printf("check_text: %d, %s\n", no, fd_refusal_text(no));
    if (read.answer.no == FD_ACCEPTED) {
        fd_answer closed = fd_closed(counts, read.counts, ends, read.ends, inc, read.inc);
        printf("read_text: %d ranks, %d elements, %d incidences\n", read.counts, read.ends / 2, read.inc);
        if (closed.no == FD_LONE_BETWEEN && closed.a == 2)
            printf("closed: edge %d lies in only one face\n", closed.b);
    }
    return 0;
}
