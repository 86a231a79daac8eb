/*
 * Tests a cell from C: a tetrahedron whose bottom face is missing. is_valid does not see it, closed does. In the
 * project's folder, after 'rt staticlib flumedrac':
 *
 *   cc -std=c99 -Iinclude host/flumedrac/examples/cell.c target/staticlib/libflumedrac.a -o target/cell && target/cell
 */
#include <stdio.h>

#include "flumedrac.h"

#define LENGTH(slice) (sizeof(slice) / sizeof((slice)[0]))

/* One minimal element, four vertices, six edges, three faces, the whole. */
static const uint16_t counts[] = {1, 4, 6, 3, 1};

/* Where each element's subs end and where its sups end. */
static const uint16_t ends[] = {
    0,  4,                                          /* the minimal element */
    5,  8,  9,  12, 13, 16, 17, 20,                 /* vertices */
    22, 24, 26, 28, 30, 32, 34, 35, 37, 38, 40, 41, /* edges */
    44, 45, 48, 49, 52, 53,                         /* faces */
    56, 56                                          /* the whole */
};

static const uint16_t inc[] = {
    0, 1, 2, 3,                                                             /* the minimal element: its vertices */
    0, 0, 1, 2, 0, 0, 3, 4, 0, 1, 3, 5, 0, 2, 4, 5,                         /* vertices: minimal element; edges */
    0, 1, 0, 1, 0, 2, 0, 2, 0, 3, 1, 2, 1, 2, 0, 1, 3, 1, 2, 3, 2,          /* edges: two vertices; one or two faces */
    0, 1, 3, 0, 0, 2, 4, 0, 1, 2, 5, 0,                                     /* faces: three edges; the whole */
    0, 1, 2                                                                 /* the whole: its faces */
};

/* An answer in words. What the fields a, b, c and d are stands in the header, beside the refusal's number. */
static void say(const char *test, fd_answer answer)
{
    printf("%s: %s", test, fd_refusal_text(answer.no));
    if (fd_class(answer.no) == FD_CLASS_STRUCTURE)
        printf(" (%d: %d, %d, %d, %d)", answer.no, answer.a, answer.b, answer.c, answer.d);
    printf("\n");
}

int main(void)
{
    fd_number faces = fd_facet_count(counts, LENGTH(counts));
    fd_answer closed = fd_closed(counts, LENGTH(counts), ends, LENGTH(ends), inc, LENGTH(inc));
    printf("a cell with %d faces\n", (int)faces.value);
    say("is_valid", fd_is_valid(counts, LENGTH(counts), ends, LENGTH(ends), inc, LENGTH(inc)));
    say("closed", closed);
    if (closed.no == FD_LONE_BETWEEN && closed.a == 2)
        printf("edge %d lies in only one face: the cell leaks there\n", closed.b);
    return 0;
}
