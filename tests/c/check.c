/*
 * Calls tmb_check, tmb_build, tmb_refine, tmb_take_back and tmb_list as docs/tmb.h declares them and
 * compares the reports, the numbers, the lengths and the bytes; prints ok if all are right.
 */
#include "tmb.h"

#include <stdio.h>
#include <string.h>

/* K as built: four vertices, one piece, job 7; 77 bytes. */
static const uint8_t k[77] = {
    'T', 'M', 'B', 1, 0,           /* mark, version 1 */
    7, 0, 0, 0,                    /* job */
    0, 0,                          /* round */
    4, 0, 4, 0,                    /* base vertices, all vertices */
    1, 0, 1, 0,                    /* base records, all records */
    0,                             /* a zero byte */
    0, 0, 0, 0, 0, 0,              /* vertex 0: (0,0,0) */
    255, 255, 255, 255,            /* no parents */
    64, 0, 0, 0, 0, 0,             /* vertex 1: (64,0,0) */
    255, 255, 255, 255,            /* no parents */
    64, 0, 64, 0, 0, 0,            /* vertex 2: (64,64,0) */
    255, 255, 255, 255,            /* no parents */
    64, 0, 64, 0, 64, 0,           /* vertex 3: (64,64,64) */
    255, 255, 255, 255,            /* no parents */
    0, 0, 1, 0, 2, 0, 3, 0,        /* record 0: corners 0 1 2 3 */
    2,                             /* refinement edge */
    4, 2, 2, 1,                    /* marks of faces 0 to 3 */
    0, 0,                          /* flag, generation */
    255, 255                       /* uncut */
};

/* K with record 0 cut: vertex 4 and records 1 and 2 are new; 121 bytes. */
static const uint8_t cut[121] = {
    'T', 'M', 'B', 1, 0,           /* mark, version 1 */
    7, 0, 0, 0,                    /* job */
    1, 0,                          /* round */
    4, 0, 5, 0,                    /* base vertices, all vertices */
    1, 0, 3, 0,                    /* base records, all records */
    0,                             /* a zero byte */
    0, 0, 0, 0, 0, 0,              /* vertex 0: (0,0,0) */
    255, 255, 255, 255,            /* no parents */
    64, 0, 0, 0, 0, 0,             /* vertex 1: (64,0,0) */
    255, 255, 255, 255,            /* no parents */
    64, 0, 64, 0, 0, 0,            /* vertex 2: (64,64,0) */
    255, 255, 255, 255,            /* no parents */
    64, 0, 64, 0, 64, 0,           /* vertex 3: (64,64,64) */
    255, 255, 255, 255,            /* no parents */
    32, 0, 32, 0, 32, 0,           /* vertex 4: (32,32,32) */
    0, 0, 3, 0,                    /* parents 0, 3 */
    0, 0, 1, 0, 2, 0, 3, 0,        /* record 0: corners 0 1 2 3 */
    2,                             /* refinement edge */
    4, 2, 2, 1,                    /* marks of faces 0 to 3 */
    0, 0,                          /* flag, generation */
    1, 0,                          /* first child */
    0, 0, 1, 0, 2, 0, 4, 0,        /* record 1: corners 0 1 2 4 */
    1,                             /* refinement edge */
    3, 1, 0, 1,                    /* marks of faces 0 to 3 */
    0, 1,                          /* flag, generation */
    255, 255,                      /* uncut */
    4, 0, 1, 0, 2, 0, 3, 0,        /* record 2: corners 4 1 2 3 */
    4,                             /* refinement edge */
    4, 5, 4, 3,                    /* marks of faces 0 to 3 */
    0, 1,                          /* flag, generation */
    255, 255                       /* uncut */
};

/* Record 0, selected for job 7 and round 0. */
static const uint8_t selected[15] = {'T', 'M', 'S', 1, 0, 7, 0, 0, 0, 0, 0, 1, 0, 0, 0};

/* The same record, named for job 7 and round 1: to be taken back. */
static const uint8_t named[15] = {'T', 'M', 'S', 1, 0, 7, 0, 0, 0, 1, 0, 1, 0, 0, 0};

/* K cut, listed: the whole output of document 01's example; 119 bytes. */
static const char listed[] = "job 7 round 1 vertices 5 records 3 leaves 2 deepest 1 sixfold 262144\n"
                             "1 0 1 2 4 edge 0 2 gen 1\n"
                             "2 4 1 2 3 edge 1 3 gen 1\n";

/* K: its places, and its one piece; the same piece left-handed. */
static const int16_t places[12] = {0, 0, 0, 64, 0, 0, 64, 64, 0, 64, 64, 64};
static const uint16_t piece[4] = {0, 1, 2, 3};
static const uint16_t left_handed[4] = {0, 1, 3, 2};

/* K and another piece, whose vertex 4 stands beside K, or on K's edge of vertices 0 and 1. */
static const int16_t beside[18] = {0,  0,  0,  64, 0,   0, 64, 64, 0,
                                   64, 64, 64, 32, -32, 0, 64, 0,  -64};
static const int16_t hanging[18] = {0,  0,  0,  64, 0, 0, 64, 64, 0,
                                    64, 64, 64, 32, 0, 0, 64, 0,  -64};
static const uint16_t pieces[8] = {0, 1, 2, 3, 4, 1, 2, 5};

static int failures = 0;

static void expect(const char *name, struct tmb_report given, struct tmb_report wanted)
{
    if (given.number != wanted.number || given.leaves != wanted.leaves ||
        given.deepest != wanted.deepest || given.sixfold != wanted.sixfold ||
        given.record != wanted.record || given.edge != wanted.edge) {
        printf("%s: number %lu leaves %lu deepest %lu sixfold %lu record %lu edge %lu\n", name,
               (unsigned long)given.number, (unsigned long)given.leaves,
               (unsigned long)given.deepest, (unsigned long)given.sixfold,
               (unsigned long)given.record, (unsigned long)given.edge);
        failures++;
    }
}

/* The longest output buffer, and a byte on both sides of it. */
static uint8_t buffer[1 + 393344 + 1];

static void fill(void)
{
    size_t i;

    for (i = 0; i < sizeof buffer; i++)
        buffer[i] = 170;
}

/* The number, and room bytes from buffer + 1; wanted is NULL where they are all to be zero. */
static void expect_written(const char *name, size_t room, uint32_t given, uint32_t number,
                           const uint8_t *wanted)
{
    size_t i;

    if (given != number) {
        printf("%s: number %lu\n", name, (unsigned long)given);
        failures++;
    }
    for (i = 0; i < room; i++) {
        if (buffer[1 + i] != (wanted ? wanted[i] : 0)) {
            printf("%s: byte %lu is %u\n", name, (unsigned long)i, (unsigned)buffer[1 + i]);
            failures++;
        }
    }
    if (buffer[0] != 170 || buffer[1 + room] != 170) {
        printf("%s: written beyond the output buffer\n", name);
        failures++;
    }
}

/* Builds K, job 7, of these corners into so many bytes. */
static void expect_built(const char *name, const uint16_t *corners, size_t room, uint32_t number,
                         const uint8_t *wanted)
{
    uint32_t given;

    fill();
    given = tmb_build(7, places, 12, corners, 4, buffer + 1, room);
    expect_written(name, room, given, number, wanted);
}

/* Builds the first of the two pieces, or both, with the vertex that hangs into so many bytes. */
static void expect_not_built(const char *name, size_t corner_count, size_t room, uint32_t number)
{
    uint32_t given;

    fill();
    given = tmb_build(7, hanging, 18, pieces, corner_count, buffer + 1, room);
    expect_written(name, room, given, number, NULL);
}

/* Refines a mesh by the selection into so many bytes. */
static void expect_refined(const char *name, const uint8_t *mesh, size_t mesh_length,
                           size_t selection_length, size_t room, uint32_t number,
                           const uint8_t *wanted)
{
    uint32_t given;

    fill();
    given = tmb_refine(mesh, mesh_length, selected, selection_length, buffer + 1, room);
    expect_written(name, room, given, number, wanted);
}

/* Takes cuts of a mesh back by the request into so many bytes. */
static void expect_taken_back(const char *name, const uint8_t *mesh, size_t mesh_length,
                              const uint8_t *request, size_t request_length, size_t room,
                              uint32_t number, const uint8_t *wanted)
{
    uint32_t given;

    fill();
    given = tmb_take_back(mesh, mesh_length, request, request_length, buffer + 1, room);
    expect_written(name, room, given, number, wanted);
}

/* Lists a mesh into so many bytes; text is what the buffer is to begin with, and zeros follow. */
static void expect_listed(const char *name, const uint8_t *mesh, size_t mesh_length, size_t room,
                          uint64_t number, const char *text)
{
    struct tmb_listed given;
    size_t length = strlen(text), i;

    fill();
    given = tmb_list(mesh, mesh_length, buffer + 1, room);
    if (given.number != number || given.length != length) {
        printf("%s: number %lu length %lu\n", name, (unsigned long)given.number,
               (unsigned long)given.length);
        failures++;
    }
    for (i = 0; i < room; i++) {
        if (buffer[1 + i] != (i < length ? (uint8_t)text[i] : 0)) {
            printf("%s: byte %lu is %u\n", name, (unsigned long)i, (unsigned)buffer[1 + i]);
            failures++;
        }
    }
    if (buffer[0] != 170 || buffer[1 + room] != 170) {
        printf("%s: written beyond the output buffer\n", name);
        failures++;
    }
}

int main(void)
{
    struct tmb_report accepted = {0, 1, 0, 262144, 0, 0};
    struct tmb_report both = {0, 2, 0, 393216, 0, 0};
    struct tmb_report refused = {0, 0, 0, 0, 0, 0};
    uint8_t hangs[114], unused[97];
    uint8_t changed[sizeof k], turned[sizeof k], coarse[sizeof cut] = {0}, leaf[sizeof named];
    size_t i;

    expect("K", tmb_check(k, sizeof k), accepted);

    /* The refinement edge 2 made 5: the faces that contain it are marked otherwise. */
    for (i = 0; i < sizeof k; i++)
        changed[i] = k[i];
    changed[68] = 5;
    refused.number = 6;
    expect("K with another refinement edge", tmb_check(changed, sizeof changed), refused);

    /* The last two corners exchanged: left-handed, and refused so before 6. */
    for (i = 0; i < sizeof k; i++)
        turned[i] = k[i];
    turned[64] = 3;
    turned[66] = 2;
    refused.number = 22;
    expect("K left-handed", tmb_check(turned, sizeof turned), refused);
    turned[68] = 5;
    expect("K left-handed with another refinement edge", tmb_check(turned, sizeof turned), refused);

    /* A flag comes before both. */
    turned[73] = 1;
    refused.number = 5;
    expect("K left-handed with its flag set", tmb_check(turned, sizeof turned), refused);
    turned[73] = 0;

    /* A vertex beside K, moved to K's edge. */
    if (tmb_build(7, beside, 18, pieces, 8, hangs, sizeof hangs) != 0) {
        puts("K and a piece beside it: not built");
        failures++;
    }
    expect("K and a piece beside it", tmb_check(hangs, sizeof hangs), both);
    hangs[62] = 0;
    hangs[63] = 0;
    refused.number = 23;
    expect("a vertex on K's edge", tmb_check(hangs, sizeof hangs), refused);

    /* K cut without children: that comes after. */
    hangs[95] = 0;
    hangs[96] = 0;
    expect("a vertex on K's edge and a cut", tmb_check(hangs, sizeof hangs), refused);

    /* K alone: the vertex is in no record, and that comes before. */
    for (i = 0; i < sizeof unused; i++)
        unused[i] = hangs[i];
    unused[15] = 1;
    unused[17] = 1;
    refused.number = 8;
    expect("a vertex on K's edge and in no record", tmb_check(unused, sizeof unused), refused);

    /* Under 20 bytes. */
    refused.number = 1;
    expect("nothing", tmb_check(k, 0), refused);

    /* A byte short. */
    expect("K without its last byte", tmb_check(k, sizeof k - 1), refused);

    expect_built("K built into 77 bytes", piece, 77, 0, k);
    expect_built("K built into 76 bytes", piece, 76, 20, NULL);
    expect_built("K built into none", piece, 0, 20, NULL);
    expect_built("K left-handed built into 77 bytes", left_handed, 77, 0, k);
    expect_built("K left-handed built into 76 bytes", left_handed, 76, 20, NULL);
    expect_not_built("a vertex on K's edge built into 114 bytes", 8, 114, 23);
    expect_not_built("a vertex on K's edge built into none", 8, 0, 23);
    expect_not_built("a vertex on K's edge and in no piece built", 4, 114, 8);

    expect_refined("K refined into 121 bytes", k, sizeof k, sizeof selected, 121, 0, cut);
    expect_refined("K refined into 120 bytes", k, sizeof k, sizeof selected, 120, 20, NULL);
    expect_refined("K refined into none", k, sizeof k, sizeof selected, 0, 20, NULL);
    expect_refined("the selection again", cut, sizeof cut, sizeof selected, 121, 14, NULL);
    expect_refined("no selection", k, sizeof k, 0, 121, 11, NULL);
    expect_refined("no mesh", k, 0, sizeof selected, 121, 1, NULL);
    expect_refined("K left-handed refined", turned, sizeof turned, sizeof selected, 121, 22, NULL);
    expect_refined("a vertex on K's edge refined", hangs, sizeof hangs, sizeof selected, 121, 23,
                   NULL);

    /* K of round 2, and zeros past it; record 1, a leaf, in the request's only number. */
    for (i = 0; i < sizeof k; i++)
        coarse[i] = k[i];
    coarse[9] = 2;
    for (i = 0; i < sizeof named; i++)
        leaf[i] = named[i];
    leaf[13] = 1;
    expect_taken_back("K's cut taken back into 77 bytes", cut, sizeof cut, named, sizeof named, 77, 0,
                      coarse);
    expect_taken_back("K's cut taken back into 121 bytes", cut, sizeof cut, named, sizeof named, 121,
                      0, coarse);
    expect_taken_back("K's cut taken back into 76 bytes", cut, sizeof cut, named, sizeof named, 76,
                      20, NULL);
    expect_taken_back("K's cut taken back into none", cut, sizeof cut, named, sizeof named, 0, 20,
                      NULL);
    expect_taken_back("the request again", coarse, sizeof k, named, sizeof named, 121, 14, NULL);
    expect_taken_back("a leaf", cut, sizeof cut, leaf, sizeof leaf, 121, 30, NULL);
    expect_taken_back("no request", cut, sizeof cut, named, 0, 121, 11, NULL);
    expect_taken_back("no mesh", cut, 0, named, sizeof named, 121, 1, NULL);
    expect_taken_back("K left-handed", turned, sizeof turned, named, sizeof named, 121, 22, NULL);
    expect_taken_back("a vertex on K's edge", hangs, sizeof hangs, named, sizeof named, 121, 23,
                      NULL);

    expect_listed("K cut listed into its length", cut, sizeof cut, strlen(listed), 0, listed);
    expect_listed("K cut listed into a byte less", cut, sizeof cut, strlen(listed) - 1, 20, "");
    expect_listed("K cut listed into none", cut, sizeof cut, 0, 20, "");
    expect_listed("K cut listed into more", cut, sizeof cut, 393344, 0, listed);
    expect_listed("K refused into its line", changed, sizeof changed, 10, 6, "refused 6\n");
    expect_listed("K refused into a byte less", changed, sizeof changed, 9, 6, "");
    expect_listed("K left-handed into its line", turned, sizeof turned, 11, 22, "refused 22\n");
    expect_listed("K left-handed into a byte less", turned, sizeof turned, 10, 22, "");
    expect_listed("a vertex on K's edge into its line", hangs, sizeof hangs, 11, 23, "refused 23\n");
    expect_listed("a vertex on K's edge into a byte less", hangs, sizeof hangs, 10, 23, "");
    expect_listed("no mesh into more", k, 0, 121, 1, "refused 1\n");

    if (failures == 0)
        puts("ok");
    return failures != 0;
}
