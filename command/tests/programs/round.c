/*
 * A round on K with what an installation has: build, refine, check, list, the cut taken back, and the
 * used selection again.
 */
#include <tmb.h>

#include <stdio.h>

/* K: its places, and its one piece. */
static const int16_t places[12] = {0, 0, 0, 64, 0, 0, 64, 64, 0, 64, 64, 64};
static const uint16_t piece[4] = {0, 1, 2, 3};

/* Record 0, selected for job 7 and round 0. */
static const uint8_t selected[15] = {'T', 'M', 'S', 1, 0, 7, 0, 0, 0, 0, 0, 1, 0, 0, 0};

/* The same record, named for job 7 and round 1: to be taken back. */
static const uint8_t named[15] = {'T', 'M', 'S', 1, 0, 7, 0, 0, 0, 1, 0, 1, 0, 0, 0};

static uint8_t built[77], refined[121], again[62484], text[393344];

int main(void)
{
    struct tmb_report report;
    struct tmb_listed listed;

    printf("build %u\n", (unsigned)tmb_build(7, places, 12, piece, 4, built, sizeof built));
    printf("refine %u\n", (unsigned)tmb_refine(built, sizeof built, selected, sizeof selected,
                                               refined, sizeof refined));
    report = tmb_check(refined, sizeof refined);
    printf("check %u leaves %u deepest %u sixfold %u\n", (unsigned)report.number,
           (unsigned)report.leaves, (unsigned)report.deepest, (unsigned)report.sixfold);
    listed = tmb_list(refined, sizeof refined, text, sizeof text);
    printf("list %u length %u\n", (unsigned)listed.number, (unsigned)listed.length);
    printf("take back %u\n", (unsigned)tmb_take_back(refined, sizeof refined, named, sizeof named,
                                                     again, sizeof again));
    printf("refine %u\n", (unsigned)tmb_refine(refined, sizeof refined, selected, sizeof selected,
                                               again, sizeof again));
    return 0;
}
