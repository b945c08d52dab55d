/* What the cabinet prints, through the C face of Jamjune: the extents t, x, y, z come as four bytes on standard input,
 * and the measurements of a cold field go to standard output, a name and a value to a line. Where the input is refused,
 * the one line is "refused" and the number of the row. At the repository's root, once `rt lib` in crates/export has written
 * libexport.a:
 *
 *     cc -std=c99 -Wall -Wextra -Wpedantic -Werror -Iinclude examples/columns.c crates/export/out/libexport.a -o crates/export/out/columns-c
 *     printf '\2\2\2\2' | crates/export/out/columns-c
 *
 * Status 0: the lines were written, a refusal's too; 1: standard input or output failed. */
#include <inttypes.h>
#include <stdio.h>
#include <string.h>

#include "jamjune.h"

enum {
    INPUT_ROW = 15, /* this program's own: not four bytes, or more sites than it has room for */
    MOST_SITES = 64,
    NUMBERS_PER_SITE = 72, /* of the links */
    PRINTED = 3, /* frames */
};

static const double coupling = 6.0;
static const uint64_t seed = 0; /* a cold field and overrelaxation draw nothing: any will do */
static const int32_t quarks[9] = {1, 0, 0, 0, 1, 0, 0, 0, 1};
static const size_t time_length = 2;
static const size_t printed_sizes[PRINTED] = {3, 0, 9};
static const size_t frame_size = 8; /* as many sites as the time between two pictures allows */

/* The library keeps no memory and asks for none: what a call works on is lent to it. */
static double links[NUMBERS_PER_SITE * MOST_SITES];

struct measurements {
    size_t sites;
    double plaquette, action, loop[2], baryon;
    uint64_t visited[PRINTED], stuck;
};

/* Every function below that returns uint32_t returns a row, 0 for none, as the library's calls do. */

/* Reads to the end, however much there is: a fifth byte may come late. */
static uint32_t read_extents(size_t ext[4])
{
    size_t count = 0;
    int byte;
    while ((byte = getchar()) != EOF) {
        if (count < 4)
            ext[count] = (size_t)byte;
        if (count < 5)
            count++;
    }
    return count == 4 ? 0 : INPUT_ROW;
}

static uint32_t measure_field(const size_t ext[4], size_t n, struct measurements *m)
{
    uint32_t row;
    if ((row = jj_average_plaquette(ext, links, n, &m->plaquette)) != 0
        || (row = jj_action(ext, coupling, links, n, &m->action)) != 0
        || (row = jj_polyakov_loop(ext, links, n, m->loop)) != 0)
        return row;
    return jj_baryon_loop(ext, 0, quarks, time_length, links, n, &m->baryon);
}

/* One half-sweep, direction 0, parity 0. Nothing else may write to the links before it is finished. */
static uint32_t half_sweep(const size_t ext[4], size_t n, struct measurements *m)
{
    uint64_t pass[1] = {0}; /* of the field: every opening moves it on, so keep it from one half-sweep to the next */
    uint64_t job[JJ_JOB_LEN];
    uint32_t row, finished[1];
    if ((row = jj_open_overrelax(ext, coupling, seed, pass, 0, 0, job)) != 0)
        return row;
    for (int i = 0; i < PRINTED; i++) {
        if ((row = jj_frame_overrelax(job, printed_sizes[i], links, n)) != 0)
            return row;
        m->visited[i] = job[JJ_JOB_VISITED];
    }
    m->stuck = job[JJ_JOB_STUCK];

    /* To its end, as a host does it: a frame, a picture, a frame. The last frame may have fewer sites left. */
    while ((row = jj_finished(job, finished)) == 0 && !finished[0]) {
        if ((row = jj_frame_overrelax(job, frame_size, links, n)) != 0)
            return row;
    }
    return row;
}

static uint32_t measure(struct measurements *m)
{
    size_t ext[4], n;
    uint32_t row;
    if ((row = read_extents(ext)) != 0 || (row = jj_n_sites(ext, &m->sites)) != 0)
        return row;
    if (m->sites > MOST_SITES)
        return INPUT_ROW;
    n = NUMBERS_PER_SITE * m->sites;
    if ((row = jj_cold(ext, coupling, seed, links, n)) != 0 || (row = measure_field(ext, n, m)) != 0)
        return row;
    return half_sweep(ext, n, m);
}

static void print_bits(const char *name, double x)
{
    uint64_t bits;
    memcpy(&bits, &x, sizeof bits);
    printf("%s %016" PRIx64 "\n", name, bits);
}

static void print(const struct measurements *m)
{
    printf("sites %zu\n", m->sites);
    print_bits("plaquette", m->plaquette);
    print_bits("action", m->action);
    print_bits("loop-re", m->loop[0]);
    print_bits("loop-im", m->loop[1]);
    print_bits("baryon", m->baryon);
    for (int i = 0; i < PRINTED; i++)
        printf("frame-%zu %" PRIu64 "\n", printed_sizes[i], m->visited[i]);
    printf("stuck %" PRIu64 "\n", m->stuck);
}

int main(void)
{
    static struct measurements measurements;
    uint32_t row = measure(&measurements); /* all of it before the first line: a refusal stands alone */
    if (ferror(stdin)) {
        fputs("columns: standard input failed\n", stderr);
        return 1;
    }
    if (row != 0)
        printf("refused %" PRIu32 "\n", row);
    else
        print(&measurements);
    return fflush(stdout) == 0 && !ferror(stdout) ? 0 : 1;
}
