/* Figures beside reports, from C. Usage: figures SCRIPT ..; of each file the report's text, read back, must say what the figures say, and a refused
 * file must have one number and place in both. Prints how many files were accepted and refused; exit status 1 at the first that differs. */
#include "diftanew.h"
#include <inttypes.h>
#include <stdio.h>
#include <string.h>

static uint8_t file[DIFTANEW_FILE + 1];
static uint32_t scratch[DIFTANEW_SCRATCH];
static char text[DIFTANEW_REPORT + 1];
static uint64_t answer[DIFTANEW_FIGURES_ANSWER];
static const uint32_t prices[DIFTANEW_PRICES] = {2, 1, 3, 1};

/* The step's number of its word in a report. */
static uint64_t step_of(const char *word) {
    return !strcmp(word, "add") ? DIFTANEW_ADD : !strcmp(word, "grow") ? DIFTANEW_GROW : DIFTANEW_SHRINK;
}

/* Does a line of the report say what the numbers of a loop say? */
static int same_loop(const char *line, const uint64_t *loop) {
    uint64_t row, turns, total;
    int64_t first, second;
    char step[8], exact[8];
    if (sscanf(line, "loop=%" SCNu64 " %7s %" SCNd64 " %" SCNd64 " %" SCNu64 " %" SCNu64 " %7s", &row, step, &first, &second, &turns, &total, exact) != 7) return 0;
    return loop[DIFTANEW_LOOP_ROW] == row && loop[DIFTANEW_LOOP_STEP] == step_of(step) && (int64_t)loop[DIFTANEW_LOOP_FIRST_END] == first
           && (int64_t)loop[DIFTANEW_LOOP_SECOND_END] == second && loop[DIFTANEW_LOOP_TURNS] == turns && loop[DIFTANEW_LOOP_TOTAL] == total
           && loop[DIFTANEW_LOOP_EXACT] == !strcmp(exact, "exact");
}

/* Does a report say what the figures say? */
static int same(void) {
    uint64_t loops, ticks, k;
    const char *line = strstr(text, "\nloops=");
    if (!line || sscanf(line, "\nloops=%" SCNu64, &loops) != 1 || loops != answer[DIFTANEW_FIGURES_LOOPS]) return 0;
    for (k = 0; k < loops; k++) {
        line = strstr(line + 1, "\nloop=");
        if (!line || !same_loop(line + 1, answer + DIFTANEW_FIGURES_FIRST + DIFTANEW_FIGURES_LOOP * k)) return 0;
    }
    for (k = DIFTANEW_FIGURES_FIRST + DIFTANEW_FIGURES_LOOP * loops; k < DIFTANEW_FIGURES_ANSWER; k++) if (answer[k]) return 0;
    line = strstr(line + 1, "\nticks=");
    return line && sscanf(line, "\nticks=%" SCNu64, &ticks) == 1 && ticks == answer[DIFTANEW_FIGURES_TICKS];
}

int main(int count, char **names) {
    int accepted = 0, refused = 0, i;
    for (i = 1; i < count; i++) {
        FILE *input = fopen(names[i], "rb");
        if (!input) return 1;
        size_t length = fread(file, 1, sizeof file, input);
        fclose(input);
        uint64_t place;
        uint32_t number = diftanew_report(file, length, prices, DIFTANEW_PRICES, scratch, DIFTANEW_SCRATCH, (uint8_t *)text, DIFTANEW_REPORT, &place);
        uint32_t told = diftanew_figures(file, length, prices, DIFTANEW_PRICES, scratch, DIFTANEW_SCRATCH, answer);
        if (!number) text[place] = 0;
        if (told != number || !(number ? answer[0] == place : same())) {
            printf("%s: report and figures differ\n", names[i]);
            return 1;
        }
        if (number) refused++; else accepted++;
    }
    printf("accepted=%d refused=%d\n", accepted, refused);
    return 0;
}
