/*
 * Calls every function that takes slices with empty ones whose pointer is null, in C and in C++, and prints the number
 * of each answer. Then it calls the archive's own functions, by a pointer and by a name in parentheses.
 */
#include <stdio.h>

#include "flumedrac.h"

#ifdef __cplusplus
#include <vector>
static const std::vector<uint16_t> none;
static const std::vector<uint8_t> no_text;
static const std::vector<double> no_coordinates;
static std::vector<uint16_t> no_room;
static std::vector<uint8_t> no_bytes;
#define NONE none.data(), none.size()
#define NO_TEXT no_text.data(), no_text.size()
#define NO_COORDINATES no_coordinates.data(), no_coordinates.size()
#define NO_ROOM no_room.data(), no_room.size()
#define NO_BYTES no_bytes.data(), no_bytes.size()
#else
#define NONE NULL, 0
#define NO_TEXT NULL, 0
#define NO_COORDINATES NULL, 0
#define NO_ROOM NULL, 0
#define NO_BYTES NULL, 0
#endif

static const uint16_t counts[] = {1};
static const uint16_t ends[] = {0, 0};
static const uint16_t flag[] = {0};
static const uint8_t text[] = {'r', 'a', 'n', 'k', '=', '0', '\n', 'c', 'o', 'u', 'n', 't', '=', '0', '\n'};
static uint16_t new_counts[1], new_ends[2];

#define NOTHING NONE, NONE, NONE
#define NULLITOPE counts, 1, ends, 2, NONE
#define NO_OUTPUT NO_ROOM, NO_ROOM, NO_ROOM

typedef fd_answer (*fd_test)(const uint16_t *, size_t, const uint16_t *, size_t, const uint16_t *, size_t);

int main(void)
{
    const fd_test closed = fd_closed;
    fd_built read = fd_read_text(text, 15, new_counts, 1, NO_ROOM, NO_ROOM);
    fd_built built = fd_duoprism(NULLITOPE, NULLITOPE, new_counts, 1, new_ends, 2, NO_ROOM);
    fd_built dual = fd_dual(NULLITOPE, new_counts, 1, new_ends, 2, NO_ROOM);

    printf("%d %d ", fd_rank(NONE).no, fd_el_count(NONE, 0).no);
    printf("%d %d\n", fd_vertex_count(NONE).no, fd_facet_count(NONE).no);
    printf("%d %d ", fd_bounded(NOTHING).no, fd_bounded(NULLITOPE).no);
    printf("%d %d ", fd_check_incidences(NOTHING).no, fd_check_incidences(NULLITOPE).no);
    printf("%d %d ", fd_is_dyadic(NOTHING).no, fd_is_dyadic(NULLITOPE).no);
    printf("%d %d ", fd_is_valid(NOTHING).no, fd_is_valid(NULLITOPE).no);
    printf("%d %d\n", fd_closed(NOTHING).no, fd_closed(NULLITOPE).no);
    printf("%d %d ", fd_change(NOTHING, NONE, 1).answer.no, fd_change(NULLITOPE, NONE, 1).answer.no);
    printf("%d ", fd_search(NOTHING, NONE, 0, NO_ROOM, NO_BYTES).answer.no);
    printf("%d ", fd_search(NULLITOPE, flag, 1, 0, NO_ROOM, NO_BYTES).answer.no);
    printf("%d ", fd_one_body(NOTHING, NO_ROOM, NO_BYTES).answer.no);
    printf("%d ", fd_one_body(NULLITOPE, NO_ROOM, NO_BYTES).answer.no);
    printf("%d ", fd_six_volume(NOTHING, NONE, NO_COORDINATES, NO_ROOM, NO_BYTES).no);
    printf("%d\n", fd_six_volume(NULLITOPE, flag, 1, NO_COORDINATES, NO_ROOM, NO_BYTES).no);
    printf("%d ", fd_duopyramid(NULLITOPE, NULLITOPE, NO_OUTPUT).answer.no);
    printf("%d ", fd_duotegum(NULLITOPE, NULLITOPE, NO_OUTPUT).answer.no);
    printf("%d ", fd_duocomb(NOTHING, NULLITOPE, NO_OUTPUT).answer.no);
    printf("%d %d %d %d ", built.answer.no, built.counts, built.ends, built.inc);
    printf("%d %d ", fd_dual(NOTHING, NO_OUTPUT).answer.no, fd_dual(NULLITOPE, NO_OUTPUT).answer.no);
    printf("%d %d %d %d\n", dual.answer.no, dual.counts, dual.ends, dual.inc);
    printf("%d %d ", fd_read_text(NO_TEXT, NO_OUTPUT).answer.no, fd_read_text(text, 15, NO_OUTPUT).answer.no);
    printf("%d %d %d %d ", read.answer.no, read.counts, read.ends, read.inc);
    printf("%d %d\n", fd_check_text(NO_TEXT), fd_check_text(text, 15));
    printf("%d %d\n", fd_write_text(NOTHING, NO_BYTES).answer.no, fd_write_text(NULLITOPE, NO_BYTES).answer.no);
    printf("%d %d\n", closed(counts, 1, ends, 2, ends, 0).no, (fd_closed)(counts, 1, ends, 2, ends, 0).no);
    return 0;
}
