/* The report and the run of a script from C. Usage: listing < SCRIPT; the script has two variables, and starts from 0 and 1. */
#include "diftanew.h"
#include <inttypes.h>
#include <stdio.h>

static uint8_t file[DIFTANEW_FILE + 1];
static uint32_t scratch[DIFTANEW_SCRATCH];
static uint8_t buffer[DIFTANEW_REPORT];
/* A tick for every row. */
static const uint32_t prices[DIFTANEW_PRICES] = {1, 1, 1, 1};

int main(void) {
    size_t length = fread(file, 1, sizeof file, stdin);
    uint64_t place;
    uint32_t refused =
        diftanew_report(file, length, prices, DIFTANEW_PRICES, scratch, DIFTANEW_SCRATCH, buffer, sizeof buffer, &place);
    if (refused) {
        printf("refused=%" PRIu32 " %" PRIu64 "\n", refused, place);
        return 1;
    }
    fwrite(buffer, 1, place, stdout);

    int32_t store[2] = {0, 1};
    uint64_t answer[DIFTANEW_ANSWER];
    refused = diftanew_run(file, length, prices, DIFTANEW_PRICES, scratch, DIFTANEW_SCRATCH, store, 2, buffer, 0, 32, answer);
    if (refused) {
        printf("refused=%" PRIu32 " %" PRIu64 "\n", refused, answer[0]);
        return 1;
    }
    printf("ending=%" PRIu64 " %" PRIu64 "\nticks=%" PRIu64 "\nused=%" PRIu64 "\nstore=%" PRId32 " %" PRId32 "\n", answer[0], answer[1],
           answer[2], answer[3], store[0], store[1]);
    for (uint64_t k = 0; k < answer[4]; k++)
        printf("loop=%" PRIu64 " %" PRIu64 " %" PRIu64 "\n", answer[5 + 3 * k], answer[6 + 3 * k], answer[7 + 3 * k]);
    return 0;
}
