/*
 * Flumedrac: tests of cells, the four products, duals, flag changes and the oriented flag search; cells read from a
 * text and written as one; the volume of a cell.
 *
 * What is proved, for every input, are the contracts of the functions in crates/flumedrac, which crates/flumedrac_c
 * exports: that they end, stay inside the slices they are lent, and answer and write what the contracts say. This header
 * says the same in words for C and C++. That its words, numbers and layouts agree with the functions is held by tests,
 * not by proof.
 *
 * A LISTING is three lent slices of 16-bit numbers.
 *   counts  How many elements each rank has, from rank 0 upward. A listing of rank n has n + 1 counts: the nullitope
 *           has one, a point two, a dyad three, a polygon four, a cell five.
 *   ends    Two numbers for each element, rank by rank and in a rank by index: where in inc its subs stop, and where
 *           its sups stop. A list starts where the list before it stops, the first at 0.
 *   inc     The numbers listed: of each element the indices of its subs, one rank lower, then of its sups, one higher.
 *
 * THE TRIANGLE, worked out: one minimal element, three vertices, three edges, the whole.
 *
 *   counts: 1 3 3 1
 *   ends:   0 3  4 6  7 9  10 12  14 15  17 18  20 21  24 24
 *   inc:    0 1 2  0 0 1  0 0 2  0 1 2  0 1 0  0 2 0  1 2 0  0 1 2
 *
 *   rank | index | what it is              | subs, where in inc | sups, where in inc
 *   0    | 0     | the minimal element     | none, 0 to 0       | 0 1 2, 0 to 3
 *   1    | 0     | vertex 0                | 0, 3 to 4          | 0 1, 4 to 6
 *   1    | 1     | vertex 1                | 0, 6 to 7          | 0 2, 7 to 9
 *   1    | 2     | vertex 2                | 0, 9 to 10         | 1 2, 10 to 12
 *   2    | 0     | edge from vertex 0 to 1 | 0 1, 12 to 14      | 0, 14 to 15
 *   2    | 1     | edge from vertex 0 to 2 | 0 2, 15 to 17      | 0, 17 to 18
 *   2    | 2     | edge from vertex 1 to 2 | 1 2, 18 to 20      | 0, 20 to 21
 *   3    | 0     | the whole               | 0 1 2, 21 to 24    | none, 24 to 24
 *
 * "3 to 4" is the stretch from inc[3] up to, and without, inc[4]. The second number of each stretch stands in ends; the
 * first is the one before it there.
 *
 * A SLICE is a pointer and the count of numbers it points to. Of an empty slice, one of length 0, the pointer is not
 * looked at and may be null: the end of this header sees to that. Slices that are lent to be written (without const)
 * overlap no other slice of the call; slices that are only read may be the same. The caller sees to this: it cannot be
 * tested here.
 *
 * WRITING: on success the prefix of each slice that the returned lengths name is written and nothing else, so that the
 * bytes behind a text stay as they were; of fd_six_volume, which returns no length, what fd_search writes. A refusal
 * writes nothing at all, with these exceptions: FD_MORE_FLAGS, FD_SEVERAL_PARTS, and the numbers from FD_NOT_RANK_FOUR
 * on. See fd_search, fd_one_body, fd_six_volume.
 *
 * What follows is no part of what is proved; it is so by the language and by the code as it stands. The language has
 * no heap and no global state: no function allocates, keeps a pointer or touches anything but its slices, and all may
 * run in several threads at once, as long as no slice that one writes is lent to another. On the stack fd_search takes
 * about 70 KB, of which 64 KB are two arrays, its index of the flags; fd_one_body takes 8 KB more, to count flags, and
 * fd_six_volume 8 KB more, for the lowest vertex of each face; a product about 25 KB, of which 24 KB are three arrays;
 * fd_is_dyadic and fd_is_valid about 4 KB, the tally of the diamond; fd_closed, fd_change, fd_dual and fd_write_text
 * about 12 KB, that tally and a cursor for each element; fd_read_text about 88 KB, what it notes of the text, and
 * fd_check_text about 170 KB, the listing that it reads besides; the others next to nothing.
 */
#ifndef FLUMEDRAC_H
#define FLUMEDRAC_H

#include <stddef.h>
#include <stdint.h>

#ifdef __cplusplus
extern "C" {
#endif

/*
 * The release that this header belongs to, and its archive. 0.4.0 adds fd_dual; all else is as it was. 0.3.0 added
 * fd_write_text, with fd_written, and FD_BYTES_SHORT. In 0.2.0 fd_changed became longer, by taken and put: a program
 * that calls fd_change and was compiled with a header before that one must be compiled anew.
 */
#define FD_VERSION_MAJOR 0
#define FD_VERSION_MINOR 4
#define FD_VERSION_PATCH 0
#define FD_VERSION "0.4.0"

/* The limits. */
#define FD_MAX_RANKS 16         /* numbers in counts: ranks 0 to 15 */
#define FD_MAX_ELEMENTS 4096    /* the sum of counts */
#define FD_MAX_INCIDENCES 32768 /* numbers in inc */
#define FD_MAX_FLAGS 16384      /* flags that a search finds */
#define FD_MAX_TEXT 65536       /* bytes of a text */
#define FD_MAX_METRES 1000      /* metres of a coordinate, either way from 0 */

/*
 * The numbers of the refusals, with the fields (a, b, c, d) of fd_answer that they carry. Fields not named are 0.
 * An "entry" is the listed index itself. Tests are made in the order that fd_bounded and the others say; the first
 * refusal is the answer.
 */
enum {
    FD_ACCEPTED = 0, /* no refusal */

    /* Shape, in this order. */
    FD_NO_RANKS = 1,        /* counts is empty */
    FD_OVER_RANKS = 2,      /* more than FD_MAX_RANKS ranks */
    FD_OVER_ELEMENTS = 3,   /* more than FD_MAX_ELEMENTS elements */
    FD_WRONG_ENDS = 4,      /* ends is not twice as long as there are elements */
    FD_OVER_INCIDENCES = 5, /* inc is longer than FD_MAX_INCIDENCES */
    FD_FALLING_ENDS = 6,    /* a number in ends is less than the one before it, or the last is not inc's length; where
                               there are no elements: inc is not empty */

    /* Structure. */
    FD_NOT_BOUNDED = 10,   /* not one minimal and one maximal element; a: how many minimal, b: how many maximal */
    FD_NO_SUBS = 11,       /* an element above rank 0 has no subs; a: rank, b: index */
    FD_NO_SUPS = 12,       /* an element below the top rank has no sups; a: rank, b: index */
    FD_SUB_NOT_BACK = 13,  /* a sub does not list the element back; a: rank, b: index, c: entry */
    FD_SUP_NOT_BACK = 14,  /* a sup does not list the element back; a: rank, b: index, c: entry */
    FD_SUB_MISSING = 15,   /* a sub does not exist; a: rank, b: index, c: entry */
    FD_SUP_MISSING = 16,   /* a sup does not exist; a: rank, b: index, c: entry */
    FD_THIRD_BETWEEN = 17, /* among the subs of an element's subs one is met a third time; a, b: the rank and index of
                              the one that is met; c, d: those of the element, two ranks higher */
    FD_LONE_BETWEEN = 18,  /* .. one is met only once; fields as for FD_THIRD_BETWEEN */
    FD_NOT_ASCENDING = 19, /* a list does not strictly ascend; a: rank, b: index, c: FD_SUBS or FD_SUPS */

    /* Flags. */
    FD_NOT_A_FLAG = 20,    /* the numbers given are no flag of the listing: see fd_change */
    FD_OUTSIDE_RANKS = 21, /* a change or a bit of the mask outside 1 to rank - 1 */
    FD_MORE_FLAGS = 22,    /* more flags than there is room for: see fd_search, fd_one_body and fd_six_volume */
    FD_SEVERAL_PARTS = 25, /* the flags are in several parts: see fd_one_body */

    /* Products. */
    FD_LEFT_INVALID = 30,       /* fd_is_valid refuses the left factor */
    FD_RIGHT_INVALID = 31,      /* fd_is_valid refuses the right factor */
    FD_COMB_OF_POINT = 32,      /* fd_duocomb with a factor of rank 1 and none of rank 0 */
    FD_PRODUCT_RANKS = 33,      /* the product has more than FD_MAX_RANKS ranks */
    FD_PRODUCT_ELEMENTS = 34,   /* .. more than FD_MAX_ELEMENTS elements */
    FD_PRODUCT_INCIDENCES = 35, /* .. more than FD_MAX_INCIDENCES incidences */
    FD_OUTPUT_SHORT = 36,       /* one of the three slices for the product, the dual, or what is read, is too short */

    /* Text: see fd_read_text and fd_write_text. */
    FD_WRONG_KEY = 40,   /* a line does not begin with its key, or is not there */
    FD_BAD_LINE = 41,    /* a line has a bad number, or no newline */
    FD_LONG_TEXT = 42,   /* more than FD_MAX_TEXT bytes, of a text that is read or that would be written */
    FD_MORE_BYTES = 43,  /* bytes after the last line */
    FD_BYTES_SHORT = 44, /* the byte slice is too short for the text that is to be written */

    /* Volumes: see fd_six_volume. */
    FD_NOT_RANK_FOUR = 50,     /* the rank is not 4 */
    FD_NOT_ORIENTABLE = 51,    /* the search says "not orientable" */
    FD_WRONG_COORDINATES = 52, /* not three coordinates for each vertex */
    FD_NOT_IN_METRES = 53      /* a coordinate that is not whole, or not from -FD_MAX_METRES to FD_MAX_METRES */
};

/* The classes of refusals, as fd_class answers them. */
enum { FD_CLASS_NONE = 0, FD_CLASS_SHAPE = 1, FD_CLASS_STRUCTURE = 2, FD_CLASS_FLAGS = 3, FD_CLASS_PRODUCTS = 4 };

/* Which list FD_NOT_ASCENDING speaks of. */
enum { FD_SUBS = 0, FD_SUPS = 1 };

/* The orientation bytes of a search. */
enum { FD_EVEN = 0, FD_ODD = 1 };

/* The kinds of an event. */
enum { FD_EVENT_NONE = 0, FD_EVENT_FLAG = 1, FD_EVENT_NOT_ORIENTABLE = 2 };

/* no is FD_ACCEPTED or a refusal's number. */
typedef struct {
    uint16_t no, a, b, c, d;
} fd_answer;

/* no is FD_ACCEPTED or FD_NO_RANKS; value is 0 on the refusal. */
typedef struct {
    uint16_t no;
    size_t value;
} fd_number;

/*
 * flag: the new flag, one index for each rank, then 0s. taken: the index that the change took out, which the old flag
 * has at its rank. put: the index that it put in, which the new flag has there. All 0 on a refusal.
 */
typedef struct {
    fd_answer answer;
    uint16_t flag[FD_MAX_RANKS];
    uint16_t taken, put;
} fd_changed;

/*
 * count: how many flags were found. orientable: 1 if so, else 0. place: how many of the flags came before the event
 * that says "not orientable"; 0 if it never came. All 0 on a refusal.
 */
typedef struct {
    fd_answer answer;
    uint16_t count, place;
    uint8_t orientable;
} fd_searched;

/* The lengths written to counts, ends and inc; all 0 on a refusal. */
typedef struct {
    fd_answer answer;
    uint16_t counts, ends, inc;
} fd_built;

/* length: how many bytes of the text were written; 0 on a refusal. */
typedef struct {
    fd_answer answer;
    size_t length;
} fd_written;

/* no is FD_ACCEPTED or a refusal's number; six is six times the volume, 0.0 on a refusal. */
typedef struct {
    uint16_t no;
    double six;
} fd_volume;

/* Where an iteration over events stands; begin with 0. */
typedef struct {
    uint32_t at;
} fd_cursor;

/* kind is one of the FD_EVENT_ numbers; flag is the flag's number in the table for FD_EVENT_FLAG, else 0. */
typedef struct {
    uint16_t kind, flag;
} fd_event;

/*
 * Parameters that come together, for the declarations below. FD_LISTING(p_) is a listing lent to be read: p_counts,
 * p_counts_len, p_ends, p_ends_len, p_inc, p_inc_len. FD_OUTPUT is the three slices that a listing is written to:
 * counts, counts_len, ends, ends_len, inc, inc_len.
 */
#define FD_LISTING(p)                                                                                                  \
    const uint16_t *p##counts, size_t p##counts_len, const uint16_t *p##ends, size_t p##ends_len,                      \
        const uint16_t *p##inc, size_t p##inc_len
#define FD_OUTPUT                                                                                                      \
    uint16_t *counts, size_t counts_len, uint16_t *ends, size_t ends_len, uint16_t *inc, size_t inc_len

/*
 * The four counts look at the counts slice alone, of any length, and refuse only an empty one (FD_NO_RANKS).
 * fd_rank: one less than the length. fd_el_count: the elements of a rank, 0 for a rank that is not there.
 * fd_vertex_count: those of rank 1. fd_facet_count: those of one rank less than the rank; 0 for the nullitope.
 */
fd_number fd_rank(const uint16_t *counts, size_t counts_len);
fd_number fd_el_count(const uint16_t *counts, size_t counts_len, size_t rank);
fd_number fd_vertex_count(const uint16_t *counts, size_t counts_len);
fd_number fd_facet_count(const uint16_t *counts, size_t counts_len);

/* The class of a number: 1 to 9 shape, 10 to 19 structure, 20 to 29 flags, 30 to 39 products, all else none. */
uint16_t fd_class(uint16_t no);

/*
 * The tests. Each first tests the shape (refusals 1 to 6), then:
 *
 * fd_bounded           one minimal and one maximal element (10).
 * fd_check_incidences  by rank, then index: 11, the subs in their order (13 or 15), 12, the sups likewise (14 or 16).
 * fd_is_dyadic         as fd_check_incidences, then the diamond (17, 18), the higher element at ranks 2 to rank - 1:
 *                      exactly two elements between any two that are two ranks apart with some element between. Where
 *                      an index is listed twice, occurrences are counted. By rank, then index; of one element 17 comes
 *                      before 18, and of several 18 the smallest low index is named.
 * fd_is_valid          fd_bounded, fd_check_incidences, fd_is_dyadic, in this order.
 * fd_closed            fd_bounded, fd_check_incidences, every list strictly ascends (19; by rank, index, subs before
 *                      sups), then the diamond up to the top: ranks 2 to rank. This is what is_valid does not ask.
 */
fd_answer fd_bounded(FD_LISTING());
fd_answer fd_check_incidences(FD_LISTING());
fd_answer fd_is_dyadic(FD_LISTING());
fd_answer fd_is_valid(FD_LISTING());
fd_answer fd_closed(FD_LISTING());

/*
 * The flag with another element at rank r: of the two elements between flag[r - 1] and flag[r + 1] the other one.
 * A flag has one number for each rank: the index of an element that is there and is listed as a sub by the next.
 *
 * taken and put are those two elements, and there is no third: taken is flag[r], put is what stands there in the new
 * flag. They are never the same. The same change again, of the new flag, gives the flag begun with, and taken and put
 * exchanged. In a listing of rank 5, whose elements of rank 4 are cells, the change at rank 4 leads across the flag's
 * face: out of the cell taken and into the cell put, the only other one that has this face. The change at rank 3 stays
 * in the cell and leads from one face to the other at the flag's edge.
 *
 * Refusals: fd_closed's, then FD_NOT_A_FLAG, then FD_OUTSIDE_RANKS. On a refusal taken and put are both 0.
 */
fd_changed fd_change(FD_LISTING(), const uint16_t *flag, size_t flag_len, uint16_t r);

/*
 * All flags that the changes in mask reach from the first flag: bit r of mask asks for the change at rank r.
 *
 * table holds the flags in the order found, the first one first, rank + 1 numbers each; orientations one byte for each,
 * FD_EVEN for the first flag and the opposite of the flag it was found from for every other. Flags are worked in the
 * order found, changes from the lowest rank upward. The first flag found again with another orientation than stored for
 * it is the one event that says "not orientable"; the stored orientation stays, and the search goes on.
 *
 * Room is the whole flags that fit into table, or orientations_len, or FD_MAX_FLAGS, whichever is the least. Refusals:
 * those of fd_closed, then FD_NOT_A_FLAG, FD_OUTSIDE_RANKS, and FD_MORE_FLAGS exactly if more flags can be reached than
 * there is room for. It alone leaves something behind: the flags found until there was no more room.
 */
fd_searched fd_search(FD_LISTING(), const uint16_t *first, size_t first_len, uint16_t mask, uint16_t *table,
                      size_t table_len, uint8_t *orientations, size_t orientations_len);

/*
 * Whether a closed cell is one body: whether single changes lead from any of its flags to every other. Two separate
 * triangles under one top are closed, and are two bodies.
 *
 * What fd_closed accepts is searched by every change, bits 1 to rank - 1 of the mask, from the flag of first sups:
 * index 0 at rank 0, and at each rank above the first sup of the element below. Room, and what stands in table and
 * orientations afterwards, are those of fd_search; so are count, place and orientable, if nothing is refused.
 *
 * Refusals: those of fd_closed, which write nothing; then FD_MORE_FLAGS exactly if the listing has more flags in all,
 * reached or not, than there is room for; then FD_SEVERAL_PARTS. After these two the slices hold what the search left,
 * as they do on success: flags of one part, as far as there was room.
 */
fd_searched fd_one_body(FD_LISTING(), uint16_t *table, size_t table_len, uint8_t *orientations,
                        size_t orientations_len);

/*
 * Six times the volume of a cell of rank 4. coordinates has three numbers for each vertex, x, y and z, the vertices in
 * the order of their indices; each is a whole number of metres from -1,000 to 1,000.
 *
 * The cell is searched by every change, bits 1 to rank - 1 of the mask, from the first flag. For each flag found that
 * is FD_EVEN, with vertex v, edge e and face f, the determinant of three vertices is taken: the lowest-numbered one of
 * f, v, and the other one of e. six is their sum. It is exact, a whole number; a zero is always 0.0 and never -0.0.
 * From the first flag changed once it is the same with the other sign, zero apart. With all vertices moved by the same
 * whole metres it is the same, as long as they stay in range.
 *
 * No more is promised. By geometry, which is not proved here, it is six times the volume of what was searched if each
 * face is one ring of edges in a plane and the faces do not run through each other, which is not tested. It is then
 * positive if the first flag's edge, seen from outside and with right-handed axes, leads from its vertex
 * counterclockwise around its face. Of several cells under one top, which fd_one_body refuses, it is that of the one
 * which the first flag belongs to. A cube of side 10 gives 6,000 or -6,000; with two opposite faces written as one,
 * which is closed and one body all the same, 4,000 or -4,000.
 *
 * Room, and what stands in table and orientations afterwards, are those of fd_search. Refusals, by their number alone:
 * those of fd_closed, then FD_NOT_A_FLAG, then FD_MORE_FLAGS, all as fd_search gives them; then FD_NOT_RANK_FOUR,
 * FD_NOT_ORIENTABLE, FD_WRONG_COORDINATES if coordinates_len is not three times the number of vertices, and
 * FD_NOT_IN_METRES for a coordinate that is not whole or out of range, as NaN is and infinities are; -0.0 is whole.
 * FD_MORE_FLAGS leaves the flags found until there was no more room; those after it leave all flags of the search; the
 * others write nothing. Where the listing is refused, fd_closed says where.
 */
fd_volume fd_six_volume(FD_LISTING(), const uint16_t *first, size_t first_len, const double *coordinates,
                        size_t coordinates_len, uint16_t *table, size_t table_len, uint8_t *orientations,
                        size_t orientations_len);

/* The sign of an orientation byte: 1.0 for FD_EVEN, -1.0 for any other byte. */
double fd_sign(uint8_t orientation);

/*
 * The next event of a search that answered this count and place; moves the cursor (not null) by one event. The events
 * are the flags 0, 1, .. in order, with FD_EVENT_NOT_ORIENTABLE after the first place flags if place is from 1 to
 * count. After the last one each call answers FD_EVENT_NONE and the cursor stays.
 */
fd_event fd_next_event(fd_cursor *cursor, uint16_t count, uint16_t place);

/*
 * The four products of p and q, written to counts, ends and inc. Refusals in order: 30, 31; then, for all but the
 * duopyramid, a factor of rank 0 gives the nullitope (FD_OUTPUT_SHORT if that does not fit: it takes 1, 2 and 0
 * numbers); 32; 33; 34; 35; 36. Slices of FD_MAX_RANKS, 2 * FD_MAX_ELEMENTS and FD_MAX_INCIDENCES numbers are always
 * long enough. p and q may be the same slices.
 *
 *   product     its elements are the pairs of             ends added   rank
 *   duopyramid  (q, p), of all ranks                      none         the sum of the ranks
 *   duoprism    (p, q), of ranks from 1                   minimal      the sum less 1
 *   duotegum    (q, p), of ranks below the top            maximal      the sum less 1
 *   duocomb     (p, q), of ranks from 1, below the top    both         the sum less 2
 *
 * The pairs of one rank are ordered by the rank of the first member, then by its index, then by the index of the
 * second. A pair lists as subs the pairs with a sub of its first member in its place, in their order, and then those
 * with a sub of its second member; pairs not in use are passed over. Where nothing is left it lists the added minimal
 * element. The added maximal element lists all facets. Sups follow from these subs: each element lists those that
 * list it, in order, each as often as it does.
 */
fd_built fd_duopyramid(FD_LISTING(p_), FD_LISTING(q_), FD_OUTPUT);
fd_built fd_duoprism(FD_LISTING(p_), FD_LISTING(q_), FD_OUTPUT);
fd_built fd_duotegum(FD_LISTING(p_), FD_LISTING(q_), FD_OUTPUT);
fd_built fd_duocomb(FD_LISTING(p_), FD_LISTING(q_), FD_OUTPUT);

/*
 * The dual of p, written to counts, ends and inc: p with the top at the bottom. Its ranks are those of p in the
 * opposite order, each element keeps its index in its rank, and what it listed as subs it lists as sups, and the other
 * way round. So a box, with 8 vertices, 12 edges and 6 faces, becomes a cell with 6 vertices, 12 edges and 8 faces:
 * vertex 3 of the dual is face 3 of the box, and lies on the edges that this face has. In a listing of rank 5, whose
 * elements of rank 4 are cells, each cell becomes a vertex, each face an edge between two of them, and each vertex a
 * cell.
 *
 * The dual of a closed listing is closed, and its own dual is p again, number by number. For closed factors the dual of
 * their duoprism is the duotegum of their duals, once the pairs are renumbered and each list is taken as a set,
 * wherever both are answered. Likewise that of their duotegum is the duoprism of their duals, and those of their
 * duopyramid and their duocomb are the same products of the duals.
 *
 * Refusals: those of fd_closed, with their fields; then FD_OUTPUT_SHORT if one of the three slices is shorter than p's
 * own, since the dual takes as much room as p. The lengths written are those of p.
 */
fd_built fd_dual(FD_LISTING(p_), FD_OUTPUT);

/*
 * A listing read from a text, and written to counts, ends and inc. The text need not end with a 0, and has no other
 * bytes than these lines, each ended by a newline (byte 10):
 *
 *   rank=     its rank; then for every rank, from 0 to this one:
 *   count=    how many elements the rank has; then for each of them:
 *   subs=     its subs, with a comma between two of them; nothing if there are none
 *
 * A number is written in decimal digits, without a sign, a space or a 0 in front, and is at most 65535. Sups follow
 * from the subs, as for a product; a sub that does not exist gets none. The point:
 *
 *   rank=1
 *   count=1
 *   subs=
 *   count=1
 *   subs=0
 *
 * Refusals: FD_LONG_TEXT, and nothing of the text is looked at. Then what comes first in the text: at the start of a
 * line FD_WRONG_KEY, if what is left does not begin with the line's key (with its =), as where nothing is left; in a
 * line FD_BAD_LINE, for all else that is wrong up to its newline; at the end of a good line FD_OVER_RANKS,
 * FD_OVER_ELEMENTS by the counts so far, or FD_OVER_INCIDENCES by the subs so far and the sups that they make; after
 * the last line FD_MORE_BYTES. Last comes FD_OUTPUT_SHORT. All fields are 0. Slices of FD_MAX_RANKS,
 * 2 * FD_MAX_ELEMENTS and FD_MAX_INCIDENCES numbers are always long enough.
 */
fd_built fd_read_text(const uint8_t *text, size_t text_len, FD_OUTPUT);

/*
 * Whether the listing in a text is closed: the number of what refuses the reading (never FD_OUTPUT_SHORT), or else the
 * number that fd_closed answers for what is read; FD_ACCEPTED if it is closed. Where it is not, fd_read_text and
 * fd_closed say where. The program cellcheck prints this number for its standard input.
 */
uint16_t fd_check_text(const uint8_t *text, size_t text_len);

/*
 * The text of a closed listing, written to the front of text: the lines that fd_read_text reads, and no 0 after them.
 * Sups are not written, since they follow from the subs. fd_read_text of the bytes written gives the same three slices;
 * and where fd_read_text gave a closed listing, these are the bytes that it was read from.
 *
 * Refusals: those of fd_closed, with their fields; then FD_BYTES_SHORT if the text has more than text_len bytes; then
 * FD_LONG_TEXT if it has more than FD_MAX_TEXT, since it could not be read. The fields of these two are 0. A slice of
 * FD_MAX_TEXT bytes has room for every text that is ever written; a longer text is refused there as FD_BYTES_SHORT, and
 * as FD_LONG_TEXT where it would fit.
 */
fd_written fd_write_text(FD_LISTING(), uint8_t *text, size_t text_len);

#ifdef __cplusplus
}
#endif

/* Functions that live in this header. Compilers are not to complain where a program does not call one. */
#if defined(__GNUC__)
#define FD_INLINE static inline __attribute__((unused))
#else
#define FD_INLINE static inline
#endif

/* A number of an answer as a sentence; "unknown number" for one that is no refusal's. It is never null. */
FD_INLINE const char *fd_refusal_text(uint16_t no)
{
    switch (no) {
    case FD_ACCEPTED: return "nothing is refused";
    case FD_NO_RANKS: return "there are no ranks";
    case FD_OVER_RANKS: return "there are more than 16 ranks";
    case FD_OVER_ELEMENTS: return "there are more than 4,096 elements";
    case FD_WRONG_ENDS: return "there are not two ends for each element";
    case FD_OVER_INCIDENCES: return "there are more than 32,768 incidences";
    case FD_FALLING_ENDS: return "the ends fall, or the last one is not the number of incidences";
    case FD_NOT_BOUNDED: return "there is not one minimal and one maximal element";
    case FD_NO_SUBS: return "an element above rank 0 has no subs";
    case FD_NO_SUPS: return "an element below the top rank has no sups";
    case FD_SUB_NOT_BACK: return "an element lists a sub that does not list it back";
    case FD_SUP_NOT_BACK: return "an element lists a sup that does not list it back";
    case FD_SUB_MISSING: return "an element lists a sub that does not exist";
    case FD_SUP_MISSING: return "an element lists a sup that does not exist";
    case FD_THIRD_BETWEEN: return "more than two elements lie between two that are two ranks apart";
    case FD_LONE_BETWEEN: return "only one element lies between two that are two ranks apart";
    case FD_NOT_ASCENDING: return "the subs or the sups of an element do not strictly ascend";
    case FD_NOT_A_FLAG: return "the numbers given are not a flag of the listing";
    case FD_OUTSIDE_RANKS: return "a change lies outside the ranks 1 to one less than the rank";
    case FD_MORE_FLAGS: return "there are more flags than there is room for";
    case FD_SEVERAL_PARTS: return "the flags are in several parts: the cell is not one body";
    case FD_LEFT_INVALID: return "the left factor is not valid";
    case FD_RIGHT_INVALID: return "the right factor is not valid";
    case FD_COMB_OF_POINT: return "there is no duocomb with a point";
    case FD_PRODUCT_RANKS: return "the product has more than 16 ranks";
    case FD_PRODUCT_ELEMENTS: return "the product has more than 4,096 elements";
    case FD_PRODUCT_INCIDENCES: return "the product has more than 32,768 incidences";
    case FD_OUTPUT_SHORT: return "a slice to write the listing to is too short";
    case FD_WRONG_KEY: return "a line of the text does not begin with its key, or is missing";
    case FD_BAD_LINE: return "a line of the text has a bad number, or does not end with a newline";
    case FD_LONG_TEXT: return "the text has more than 65,536 bytes";
    case FD_MORE_BYTES: return "the text goes on after its last line";
    case FD_BYTES_SHORT: return "the byte slice is too short for the text";
    case FD_NOT_RANK_FOUR: return "the cell's rank is not 4";
    case FD_NOT_ORIENTABLE: return "the cell is not orientable";
    case FD_WRONG_COORDINATES: return "there are not three coordinates for each vertex";
    case FD_NOT_IN_METRES: return "a coordinate is not a whole number of metres from -1,000 to 1,000";
    default: return "unknown number";
    }
}

/*
 * EMPTY SLICES. The archive's functions ask for pointers that are not null, also where the length is 0; but an empty
 * vector of C++ has a null pointer. So a call by name goes through a function below, which passes all on as it is, only
 * for a slice of length 0 the address of a number that is never looked at. A pointer to a function, a name in
 * parentheses as in (fd_closed)(..), and other languages reach the archive's function itself.
 */
FD_INLINE const uint16_t *fd_lent_numbers(const uint16_t *numbers, size_t length)
{
    static const uint16_t none = 0;
    return length == 0 ? &none : numbers;
}

FD_INLINE uint16_t *fd_lent_room(uint16_t *numbers, size_t length)
{
    static uint16_t none = 0;
    return length == 0 ? &none : numbers;
}

FD_INLINE const uint8_t *fd_lent_text(const uint8_t *text, size_t length)
{
    static const uint8_t none = 0;
    return length == 0 ? &none : text;
}

FD_INLINE const double *fd_lent_coordinates(const double *coordinates, size_t length)
{
    static const double none = 0.0;
    return length == 0 ? &none : coordinates;
}

FD_INLINE uint8_t *fd_lent_bytes(uint8_t *bytes, size_t length)
{
    static uint8_t none = 0;
    return length == 0 ? &none : bytes;
}

/* The arguments for FD_LISTING(p) and FD_OUTPUT. */
#define FD_LENT_LISTING(p)                                                                                             \
    fd_lent_numbers(p##counts, p##counts_len), p##counts_len, fd_lent_numbers(p##ends, p##ends_len), p##ends_len,      \
        fd_lent_numbers(p##inc, p##inc_len), p##inc_len
#define FD_LENT_OUTPUT                                                                                                 \
    fd_lent_room(counts, counts_len), counts_len, fd_lent_room(ends, ends_len), ends_len,                              \
        fd_lent_room(inc, inc_len), inc_len

/* The guarded functions that differ by name alone. */
#define FD_GUARDED_COUNT(name)                                                                                         \
    FD_INLINE fd_number name##_guarded(const uint16_t *counts, size_t counts_len)                                      \
    {                                                                                                                  \
        return name(fd_lent_numbers(counts, counts_len), counts_len);                                                  \
    }
#define FD_GUARDED_TEST(name)                                                                                          \
    FD_INLINE fd_answer name##_guarded(FD_LISTING())                                                                   \
    {                                                                                                                  \
        return name(FD_LENT_LISTING());                                                                                \
    }
#define FD_GUARDED_PRODUCT(name)                                                                                       \
    FD_INLINE fd_built name##_guarded(FD_LISTING(p_), FD_LISTING(q_), FD_OUTPUT)                                       \
    {                                                                                                                  \
        return name(FD_LENT_LISTING(p_), FD_LENT_LISTING(q_), FD_LENT_OUTPUT);                                         \
    }

FD_GUARDED_COUNT(fd_rank)
FD_GUARDED_COUNT(fd_vertex_count)
FD_GUARDED_COUNT(fd_facet_count)
FD_GUARDED_TEST(fd_bounded)
FD_GUARDED_TEST(fd_check_incidences)
FD_GUARDED_TEST(fd_is_dyadic)
FD_GUARDED_TEST(fd_is_valid)
FD_GUARDED_TEST(fd_closed)
FD_GUARDED_PRODUCT(fd_duopyramid)
FD_GUARDED_PRODUCT(fd_duoprism)
FD_GUARDED_PRODUCT(fd_duotegum)
FD_GUARDED_PRODUCT(fd_duocomb)

FD_INLINE fd_number fd_el_count_guarded(const uint16_t *counts, size_t counts_len, size_t rank)
{
    return fd_el_count(fd_lent_numbers(counts, counts_len), counts_len, rank);
}

FD_INLINE fd_changed fd_change_guarded(FD_LISTING(), const uint16_t *flag, size_t flag_len, uint16_t r)
{
    return fd_change(FD_LENT_LISTING(), fd_lent_numbers(flag, flag_len), flag_len, r);
}

FD_INLINE fd_searched fd_search_guarded(FD_LISTING(), const uint16_t *first, size_t first_len, uint16_t mask,
                                        uint16_t *table, size_t table_len, uint8_t *orientations,
                                        size_t orientations_len)
{
    return fd_search(FD_LENT_LISTING(), fd_lent_numbers(first, first_len), first_len, mask,
                     fd_lent_room(table, table_len), table_len, fd_lent_bytes(orientations, orientations_len),
                     orientations_len);
}

FD_INLINE fd_searched fd_one_body_guarded(FD_LISTING(), uint16_t *table, size_t table_len, uint8_t *orientations,
                                          size_t orientations_len)
{
    return fd_one_body(FD_LENT_LISTING(), fd_lent_room(table, table_len), table_len,
                       fd_lent_bytes(orientations, orientations_len), orientations_len);
}

FD_INLINE fd_volume fd_six_volume_guarded(FD_LISTING(), const uint16_t *first, size_t first_len,
                                          const double *coordinates, size_t coordinates_len, uint16_t *table,
                                          size_t table_len, uint8_t *orientations, size_t orientations_len)
{
    return fd_six_volume(FD_LENT_LISTING(), fd_lent_numbers(first, first_len), first_len,
                         fd_lent_coordinates(coordinates, coordinates_len), coordinates_len,
                         fd_lent_room(table, table_len), table_len, fd_lent_bytes(orientations, orientations_len),
                         orientations_len);
}

FD_INLINE fd_built fd_dual_guarded(FD_LISTING(p_), FD_OUTPUT)
{
    return fd_dual(FD_LENT_LISTING(p_), FD_LENT_OUTPUT);
}

FD_INLINE fd_built fd_read_text_guarded(const uint8_t *text, size_t text_len, FD_OUTPUT)
{
    return fd_read_text(fd_lent_text(text, text_len), text_len, FD_LENT_OUTPUT);
}

FD_INLINE uint16_t fd_check_text_guarded(const uint8_t *text, size_t text_len)
{
    return fd_check_text(fd_lent_text(text, text_len), text_len);
}

FD_INLINE fd_written fd_write_text_guarded(FD_LISTING(), uint8_t *text, size_t text_len)
{
    return fd_write_text(FD_LENT_LISTING(), fd_lent_bytes(text, text_len), text_len);
}

#define fd_rank(...) fd_rank_guarded(__VA_ARGS__)
#define fd_el_count(...) fd_el_count_guarded(__VA_ARGS__)
#define fd_vertex_count(...) fd_vertex_count_guarded(__VA_ARGS__)
#define fd_facet_count(...) fd_facet_count_guarded(__VA_ARGS__)
#define fd_bounded(...) fd_bounded_guarded(__VA_ARGS__)
#define fd_check_incidences(...) fd_check_incidences_guarded(__VA_ARGS__)
#define fd_is_dyadic(...) fd_is_dyadic_guarded(__VA_ARGS__)
#define fd_is_valid(...) fd_is_valid_guarded(__VA_ARGS__)
#define fd_closed(...) fd_closed_guarded(__VA_ARGS__)
#define fd_change(...) fd_change_guarded(__VA_ARGS__)
#define fd_search(...) fd_search_guarded(__VA_ARGS__)
#define fd_one_body(...) fd_one_body_guarded(__VA_ARGS__)
#define fd_six_volume(...) fd_six_volume_guarded(__VA_ARGS__)
#define fd_duopyramid(...) fd_duopyramid_guarded(__VA_ARGS__)
#define fd_duoprism(...) fd_duoprism_guarded(__VA_ARGS__)
#define fd_duotegum(...) fd_duotegum_guarded(__VA_ARGS__)
#define fd_duocomb(...) fd_duocomb_guarded(__VA_ARGS__)
#define fd_dual(...) fd_dual_guarded(__VA_ARGS__)
#define fd_read_text(...) fd_read_text_guarded(__VA_ARGS__)
#define fd_check_text(...) fd_check_text_guarded(__VA_ARGS__)
#define fd_write_text(...) fd_write_text_guarded(__VA_ARGS__)

#undef FD_INLINE
#undef FD_LISTING
#undef FD_OUTPUT
#undef FD_LENT_LISTING
#undef FD_LENT_OUTPUT
#undef FD_GUARDED_COUNT
#undef FD_GUARDED_TEST
#undef FD_GUARDED_PRODUCT

#endif
