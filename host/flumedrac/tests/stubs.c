/*
 * Stands in for the archive, to see what the header hands on: every function that takes slices answers the number 99
 * where one of its pointers is null, and else 0s.
 */
#include "flumedrac.h"

#define SLICE(type, p) type *p, size_t p##_len
#define LISTING(p) SLICE(const uint16_t, p##counts), SLICE(const uint16_t, p##ends), SLICE(const uint16_t, p##inc)
#define OUTPUT SLICE(uint16_t, counts), SLICE(uint16_t, ends), SLICE(uint16_t, inc)
#define NO_POINTER(p) ((void)p##_len, (p) == NULL)
#define NO_LISTING(p) (NO_POINTER(p##counts) || NO_POINTER(p##ends) || NO_POINTER(p##inc))

static fd_answer said(int null)
{
    fd_answer answer = {0, 0, 0, 0, 0};
    answer.no = null ? 99 : 0;
    return answer;
}

static fd_number counted(int null)
{
    fd_number number = {0, 0};
    number.no = said(null).no;
    return number;
}

static fd_searched found(int null)
{
    fd_searched searched = {{0, 0, 0, 0, 0}, 0, 0, 0};
    searched.answer = said(null);
    return searched;
}

static fd_built wrote(int null)
{
    fd_built built = {{0, 0, 0, 0, 0}, 0, 0, 0};
    built.answer = said(null);
    return built;
}

/* A name in parentheses is the function's, not the header's macro. */
#define COUNT(name) \
    fd_number(name)(SLICE(const uint16_t, counts)) { return counted(NO_POINTER(counts)); }
#define TEST(name) \
    fd_answer(name)(LISTING()) { return said(NO_LISTING()); }
#define PRODUCT(name) \
    fd_built(name)(LISTING(p_), LISTING(q_), OUTPUT) \
    { \
        return wrote(NO_LISTING(p_) || NO_LISTING(q_) || NO_LISTING()); \
    }

COUNT(fd_rank)
COUNT(fd_vertex_count)
COUNT(fd_facet_count)
TEST(fd_bounded)
TEST(fd_check_incidences)
TEST(fd_is_dyadic)
TEST(fd_is_valid)
TEST(fd_closed)
PRODUCT(fd_duopyramid)
PRODUCT(fd_duoprism)
PRODUCT(fd_duotegum)
PRODUCT(fd_duocomb)

fd_number(fd_el_count)(SLICE(const uint16_t, counts), size_t rank)
{
    return counted(NO_POINTER(counts) || rank > 100);
}

fd_changed(fd_change)(LISTING(), SLICE(const uint16_t, flag), uint16_t r)
{
    fd_changed changed = {{0, 0, 0, 0, 0}, {0}, 0, 0};
    changed.answer = said(NO_LISTING() || NO_POINTER(flag) || r > 100);
    return changed;
}

fd_searched(fd_search)(LISTING(), SLICE(const uint16_t, first), uint16_t mask, SLICE(uint16_t, table),
                       SLICE(uint8_t, orientations))
{
    return found(NO_LISTING() || NO_POINTER(first) || mask > 100 || NO_POINTER(table) || NO_POINTER(orientations));
}

fd_searched(fd_one_body)(LISTING(), SLICE(uint16_t, table), SLICE(uint8_t, orientations))
{
    return found(NO_LISTING() || NO_POINTER(table) || NO_POINTER(orientations));
}

fd_volume(fd_six_volume)(LISTING(), SLICE(const uint16_t, first), SLICE(const double, coordinates),
                         SLICE(uint16_t, table), SLICE(uint8_t, orientations))
{
    fd_volume volume = {0, 0.0};
    volume.no = said(NO_LISTING() || NO_POINTER(first) || NO_POINTER(coordinates) || NO_POINTER(table) ||
                     NO_POINTER(orientations))
                    .no;
    return volume;
}

fd_built(fd_dual)(LISTING(p_), OUTPUT)
{
    return wrote(NO_LISTING(p_) || NO_LISTING());
}

fd_built(fd_read_text)(SLICE(const uint8_t, text), OUTPUT)
{
    return wrote(NO_POINTER(text) || NO_LISTING());
}

uint16_t(fd_check_text)(SLICE(const uint8_t, text))
{
    return said(NO_POINTER(text)).no;
}

fd_written(fd_write_text)(LISTING(), SLICE(uint8_t, text))
{
    fd_written written = {{0, 0, 0, 0, 0}, 0};
    written.answer = said(NO_LISTING() || NO_POINTER(text));
    return written;
}
