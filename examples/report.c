/* report TEXT TARGET RECORDING..: how near the numbers of one question came to a wanted one, over all the recordings. */
#include "file.h"

#include <string.h>

int main(int argc, char **argv)
{
    static uint8_t recording[ROOM];
    uint8_t report[MILL_REPORT_BYTES];
    uint32_t met, empty;
    uint64_t distances, r;
    double mean;
    int i;

    if (argc < 4) {
        fprintf(stderr, "usage: report TEXT TARGET RECORDING..\n");
        return 2;
    }
    r = mill_report_start((uint32_t)(argc - 3), (const uint8_t *)argv[1], strlen(argv[1]), strtoll(argv[2], NULL, 10), report,
                          sizeof report);
    for (i = 3; i < argc && MILL_IS_RESULT(r); i++) {
        size_t length = read_file(argv[i], recording);
        r = mill_report_add(report, sizeof report, recording, length, &met, &empty, &distances, &mean);
    }
    if (!MILL_IS_RESULT(r))
        return refused(r);
    printf("met %lu, empty %lu, distances %lu\n", (unsigned long)met, (unsigned long)empty, (unsigned long)distances);
    if (r == MILL_REPORT)
        printf("mean degree %.6f\n", mean);
    return 0;
}
