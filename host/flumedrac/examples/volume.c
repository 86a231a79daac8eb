/*
 * The volume of a prism from C, the duoprism of a dyad and a triangle: its floor is a triangle with sides of 30 and 40
 * metres at the right angle, and so is its roof, 100 metres higher. In the project's folder, after
 * 'rt staticlib flumedrac':
 *
 *   cc -std=c99 -Iinclude host/flumedrac/examples/volume.c target/staticlib/libflumedrac.a -o target/volume
 *   target/volume
 */
#include <stdio.h>

#include "flumedrac.h"

#define LENGTH(slice) (sizeof(slice) / sizeof((slice)[0]))
#define DYAD d_counts, LENGTH(d_counts), d_ends, LENGTH(d_ends), d_inc, LENGTH(d_inc)
#define TRIANGLE t_counts, LENGTH(t_counts), t_ends, LENGTH(t_ends), t_inc, LENGTH(t_inc)
#define OUTPUT counts, LENGTH(counts), ends, LENGTH(ends), inc, LENGTH(inc)
#define FLAGS table, LENGTH(table), orientations, LENGTH(orientations)

static const uint16_t d_counts[] = {1, 2, 1};
static const uint16_t d_ends[] = {0, 2, 3, 4, 5, 6, 8, 8};
static const uint16_t d_inc[] = {0, 1, 0, 0, 0, 0, 0, 1};

static const uint16_t t_counts[] = {1, 3, 3, 1};
static const uint16_t t_ends[] = {0, 3, 4, 6, 7, 9, 10, 12, 14, 15, 17, 18, 20, 21, 24, 24};
static const uint16_t t_inc[] = {0, 1, 2, 0, 0, 1, 0, 0, 2, 0, 1, 2, 0, 1, 0, 0, 2, 0, 1, 2, 0, 0, 1, 2};

/* Three coordinates for each vertex: those of the floor, the dyad's vertex 0, come first. */
static double coordinates[] = {
    0, 0, 0,   30, 0, 0,   0, 40, 0,   /* the floor */
    0, 0, 100, 30, 0, 100, 0, 40, 100, /* the roof */
};

/* A flag to begin with: here edge 0 has vertex 0, and face 0 has edge 0. */
static const uint16_t first[] = {0, 0, 0, 0, 0};

/* Room for any listing, and for 100 flags of rank 4: five numbers and a byte for each. */
static uint16_t counts[FD_MAX_RANKS], ends[2 * FD_MAX_ELEMENTS], inc[FD_MAX_INCIDENCES];
static uint16_t table[5 * 100];
static uint8_t orientations[100];

/* What is said of the listing in counts, ends and inc. The sign is that of the first flag: a volume has none. */
static void measure(const char *name, fd_built cell)
{
    fd_volume volume = fd_six_volume(counts, cell.counts, ends, cell.ends, inc, cell.inc, first, LENGTH(first),
                                     coordinates, LENGTH(coordinates), FLAGS);
    printf("%s: ", name);
    if (volume.no == FD_ACCEPTED)
        printf("%.0f cubic metres\n", (volume.six < 0 ? -volume.six : volume.six) / 6);
    else
        printf("%s (%d)\n", fd_refusal_text(volume.no), volume.no);
}

int main(void)
{
    fd_built prism = fd_duoprism(DYAD, TRIANGLE, OUTPUT);
    measure("a prism", prism);
    coordinates[17] = 100.5;
    measure("with one corner half a metre higher", prism);
    return 0;
}
