/*
 * Rounds an array of doubles to bfloat16, packs the rounded numbers to their codes, unpacks the codes, and
 * meets a refusal. README.md, in this folder, has the commands that build and run it; host.out is its output.
 */
#include <inttypes.h>
#include <stdio.h>
#include <string.h>

#include "wharfgrain.h"

#define COUNT 6

/* Whether the call was refused; if so, it says why. */
static int refused(const char *call, wharfgrain_report report)
{
    if (report.number == WHARFGRAIN_ACCEPTED)
        return 0;
    printf("%s was refused as %" PRIu64 " at place %" PRIu64 "\n", call, report.number, report.place);
    return 1;
}

int main(void)
{
    /* exact; a tie to even; rounded up; too large; subnormal in bfloat16; too small, and its sign stays */
    const double numbers[COUNT] = {-1.5, 1.00390625, 0.1, 3.4e38, 1e-40, -1e-50};
    uint64_t patterns[COUNT], rounded[COUNT], codes[COUNT], unpacked[COUNT], before[COUNT];
    wharfgrain_format f = wharfgrain_known(WHARFGRAIN_BFLOAT16);
    wharfgrain_report report;
    int i;

    printf("bfloat16 has p = %" PRIu64 ", emax = %" PRIu64 ", sub = %" PRIu64 "\n\n", f.p, f.emax, f.sub);

    /* This mode looks at no r and at no word: both are 0 here, but the pointer to the words is not null. */
    memcpy(patterns, numbers, sizeof patterns);
    report = wharfgrain_round(f.p, f.emax, f.sub, WHARFGRAIN_NEAREST_EVEN, 0, patterns, 0,
                              patterns, COUNT, rounded, COUNT);
    if (refused("rounding", report))
        return 1;
    report = wharfgrain_pack(f.p, f.emax, f.sub, rounded, COUNT, codes, COUNT);
    if (refused("packing", report))
        return 1;
    report = wharfgrain_unpack(f.p, f.emax, f.sub, codes, COUNT, unpacked, COUNT);
    if (refused("unpacking", report))
        return 1;

    printf("%-12s %-18s %-18s %-6s %s\n", "number", "pattern", "rounded", "code", "unpacked");
    for (i = 0; i < COUNT; i++)
        printf("%-12g %016" PRIX64 "   %016" PRIX64 "   %04" PRIX64 "   %016" PRIX64 "\n",
               numbers[i], patterns[i], rounded[i], codes[i], unpacked[i]);

    /* Numbers that were not rounded have no codes. The first of them is at place 1; no code is written. */
    printf("\n");
    memcpy(before, codes, sizeof before);
    report = wharfgrain_pack(f.p, f.emax, f.sub, patterns, COUNT, codes, COUNT);
    if (!refused("packing the numbers as they came", report) || memcmp(before, codes, sizeof before) != 0)
        return 1;
    printf("the codes are still those of the rounded numbers\n");
    return 0;
}
