/* The library without a C library: a program of its own start, `memcpy` and `memset`. It reports and runs document 01's smallest script, and
 * takes null pointers with lengths of 0. Exit status 0: all as stated; else the number of the first check that fails. For Linux on x86-64. */
#include "diftanew.h"

void *memcpy(void *to, const void *from, size_t n);
void *memset(void *to, int byte, size_t n);
void start(void);

void *memcpy(void *to, const void *from, size_t n) {
    size_t i;
    for (i = 0; i < n; i++) ((volatile uint8_t *)to)[i] = ((const uint8_t *)from)[i];
    return to;
}

void *memset(void *to, int byte, size_t n) {
    size_t i;
    for (i = 0; i < n; i++) ((volatile uint8_t *)to)[i] = (uint8_t)byte;
    return to;
}

static const uint8_t script[] = "script=1\nvars=0\nrows=1\nrow=cue 7\n";
static const uint8_t report[] = "report=1\nrows=1\nloops=0\nticks=1\n";
static const uint32_t prices[DIFTANEW_PRICES] = {1, 1, 1, 1};
static uint32_t scratch[DIFTANEW_SCRATCH];
static uint8_t buffer[DIFTANEW_REPORT];
static uint64_t answer[DIFTANEW_ANSWER];
static uint64_t figures[DIFTANEW_FIGURES_ANSWER];
static uint64_t many[DIFTANEW_FRAMES_ANSWER];

static int check(void) {
    const size_t file = sizeof script - 1, none = 0, nine = 9;
    uint64_t place = 0;
    size_t i;
    if (diftanew_report(script, file, prices, DIFTANEW_PRICES, scratch, DIFTANEW_SCRATCH, buffer, sizeof buffer, &place) != DIFTANEW_ACCEPTED) return 1;
    if (place != sizeof report - 1) return 2;
    for (i = 0; i < sizeof report - 1; i++) if (buffer[i] != report[i]) return 3;
    /* Nulls: no store, no picks, no file, no buffer, no prices, no scratch. */
    if (diftanew_run(script, file, prices, DIFTANEW_PRICES, scratch, DIFTANEW_SCRATCH, 0, 0, 0, 0, 1, answer) != DIFTANEW_ACCEPTED) return 4;
    if (answer[0] != DIFTANEW_ENDED || answer[1] != 1 || answer[2] != 1) return 5;
    if (diftanew_report(0, 0, prices, DIFTANEW_PRICES, scratch, DIFTANEW_SCRATCH, buffer, sizeof buffer, &place) != DIFTANEW_SHAPE || place != 1) return 6;
    if (diftanew_report(script, file, prices, DIFTANEW_PRICES, scratch, DIFTANEW_SCRATCH, 0, 0, &place) != DIFTANEW_BUFFER_SHORT || place != sizeof report - 1) return 7;
    if (diftanew_report(script, file, 0, 0, scratch, DIFTANEW_SCRATCH, buffer, sizeof buffer, &place) != DIFTANEW_PRICE || place != 0) return 8;
    if (diftanew_report(script, file, prices, DIFTANEW_PRICES, 0, 0, buffer, sizeof buffer, &place) != DIFTANEW_SCRATCH_SHORT || place != 1024) return 9;
    if (diftanew_frames(0, 0, 0, 0, 0, 0, 0, 0, 0, 0, 0, 0, prices, DIFTANEW_PRICES, 1, scratch, DIFTANEW_SCRATCH, many) != DIFTANEW_FRAMES) return 10;
    if (diftanew_frames(script, file, &file, 1, 0, 0, &none, 1, 0, 0, &none, 1, prices, DIFTANEW_PRICES, 1, scratch, DIFTANEW_SCRATCH, many) != DIFTANEW_ACCEPTED) return 11;
    if (many[0] != 1 || many[1] != 1 || many[4] != 1) return 12;
    if (diftanew_frames(script, file, &file, 1, 0, 0, &none, 1, 0, 0, &none, 1, prices, 3, 1, scratch, DIFTANEW_SCRATCH, many) != DIFTANEW_PRICE || many[0] != 3 || many[1] != 0) return 16;
    if (diftanew_frames(script, 9, &nine, 1, 0, 0, &none, 1, 0, 0, &none, 1, prices, DIFTANEW_PRICES, 1, scratch, DIFTANEW_SCRATCH, many) != DIFTANEW_SHAPE || many[0] != 2 || many[1] != 1) return 17;
    if (diftanew_figures(script, file, prices, DIFTANEW_PRICES, scratch, DIFTANEW_SCRATCH, figures) != DIFTANEW_ACCEPTED) return 13;
    if (figures[DIFTANEW_FIGURES_TICKS] != 1 || figures[DIFTANEW_FIGURES_VARS] != 0 || figures[DIFTANEW_FIGURES_LOOPS] != 0) return 14;
    if (diftanew_figures(0, 0, 0, 0, scratch, DIFTANEW_SCRATCH, figures) != DIFTANEW_PRICE || figures[0] != 0) return 15;
    return 0;
}

/* The stack comes aligned as before a call, not as after one. */
__attribute__((force_align_arg_pointer)) void start(void) {
    __asm__ volatile("syscall" : : "a"(60L), "D"((long)check()) : "rcx", "r11", "memory");
}
