/* Diftanew: the report and the run of an effect script, what its report says as numbers, several scripts in one frame, and live runs, for C.
 *
 * Every input is taken or refused by number. The caller guarantees valid pointers: each pointer is to at least as many elements as the length
 * beside it says (a length of 0 may come with any pointer, a null one too: nothing is read or written through it), `place` to one number,
 * `answer` to DIFTANEW_ANSWER numbers (of figures, to DIFTANEW_FIGURES_ANSWER; of frames, to DIFTANEW_FRAMES_ANSWER; of start, to
 * DIFTANEW_START_ANSWER; of step, to DIFTANEW_STEP_ANSWER), and no two of the lent parts overlap, but those that are only read. Nothing else
 * is asked.
 *
 * A call needs a scratch of 1,024 numbers and a stack of 16 KB (60 KB for frames), no heap, and nothing else; it keeps no state. All calls
 * but frames write over the first 1,024 numbers of the scratch, whatever these were; every number past them, where a patch list may lie, keeps its value, and so
 * do all of them if the scratch is refused as too short.
 *
 * Calls on several threads at once are safe where scratch, store, state, buffer, cues and answer are each thread's own; file, prices and picks may be shared.
 * The library calls `memcpy` and `memset` and nothing else; freestanding, the program has these two. */
#ifndef DIFTANEW_H
#define DIFTANEW_H

#include <stddef.h>
#include <stdint.h>

#ifdef __cplusplus
extern "C" {
#endif

/* The library's version: a change of the first number may break a caller, one of the second adds calls. */
#define DIFTANEW_VERSION_MAJOR 1
#define DIFTANEW_VERSION_MINOR 2
#define DIFTANEW_VERSION_PATCH 0

/* The 32-bit numbers of scratch that a call wants (question 1). */
#define DIFTANEW_SCRATCH 1024
/* The longest file that is taken (question 2). */
#define DIFTANEW_FILE 16384
/* The prices that a call is lent (question 16): ticks of arithmetic (set, off, for starts and for steps with it), cue, pick and test, each 1 to 1,000. */
#define DIFTANEW_PRICES 4
/* No report is longer: a buffer of so many bytes holds every one. */
#define DIFTANEW_REPORT 2089
/* The bytes of stack that a report, figures, a run and a call of frames need at most. */
#define DIFTANEW_REPORT_STACK 16384
#define DIFTANEW_FIGURES_STACK 16384
#define DIFTANEW_RUN_STACK 16384
#define DIFTANEW_FRAMES_STACK 61440
/* The loops that a script has at most, and the numbers of the answer of figures. */
#define DIFTANEW_LOOPS 16
#define DIFTANEW_FIGURES_ANSWER 115
/* The numbers of a run's answer. */
#define DIFTANEW_ANSWER 53
/* The scripts that a call of frames takes at most, and the numbers of its answer. */
#define DIFTANEW_SCRIPTS 8
#define DIFTANEW_FRAMES_ANSWER 433

/* The numbers of a live run's state, and of the answers of start and of step; the most ticks of one step. */
#define DIFTANEW_STATE 64
#define DIFTANEW_START_ANSWER 2
#define DIFTANEW_STEP_ANSWER 56
#define DIFTANEW_STEP_TICKS 1000000
#define DIFTANEW_STEP_STACK 16384

/* Refusal numbers, by document 01's questions; document 02's are 16, which is asked after 1 and before 2, 17, after 3 on its line, and 19, of a
 * hold in the place of 8 to 12; 20 is asked by frames alone, before all others. 18 is the program season's. */
enum {
    DIFTANEW_ACCEPTED = 0,
    DIFTANEW_SCRATCH_SHORT = 1,   /* place: 1024 */
    DIFTANEW_FILE_LONG = 2,       /* place: 16384 */
    DIFTANEW_SHAPE = 3,           /* place: the line, from 1 */
    DIFTANEW_NUMBER = 4,          /* place: the line */
    DIFTANEW_VARIABLE = 5,        /* place: the line */
    DIFTANEW_BLOCK = 6,           /* place: the line */
    DIFTANEW_DEPTH = 7,           /* place: the line */
    DIFTANEW_STEP_UNKNOWN = 8,    /* place: the loop's head row, from 0, as to 12 */
    DIFTANEW_STEP_STANDS = 9,
    DIFTANEW_LIMIT_CHANGES = 10,
    DIFTANEW_COMPARISON = 11,
    DIFTANEW_NO_FIGURE = 12,
    DIFTANEW_TICKS = 13,          /* place: the first end row, in row order, whose block is over the limit; the number of rows only if no block is */
    DIFTANEW_BUFFER_SHORT = 14,   /* place: the report's length */
    DIFTANEW_STORE = 15,          /* place: the first index wrong, missing or extra */
    DIFTANEW_PRICE = 16,          /* place: the first price, from 0, that is wrong, missing or extra */
    DIFTANEW_EXPRESSION = 17,     /* place: the line; more than 8 parentheses open together or more than 15 operators in one expression */
    DIFTANEW_HOLD = 19,           /* place: the hold's head row; its body breaks the terms of held loops; asked before 8 on that loop */
    DIFTANEW_FRAMES = 20,         /* place: 0; no script or more than 8, lists of lengths that differ in number or do not add up to what is lent, q not 1 to 1,000,000 */
    DIFTANEW_LIVE_STATE = 21,     /* place: the first number of a live run's state, from 0, that no run of this file can have there; 64 if it has not 64 */
    DIFTANEW_LIVE_TICKS = 22      /* place: 0; q of a step above 1,000,000 */
};

/* How a step leaves the script: answer[0] of a step. */
enum { DIFTANEW_GOING = 0, DIFTANEW_WAITS = 1, DIFTANEW_FULL = 2, DIFTANEW_LIVE_ENDED = 3, DIFTANEW_LIVE_RANGE = 4 };

/* How a run ends: answer[0]. */
enum { DIFTANEW_ENDED = 0, DIFTANEW_SPENT = 1, DIFTANEW_RANGE = 2, DIFTANEW_NO_PICK = 3 };

/* Writes the report of `file`, whose rows take the ticks that `prices` says, to the front of `buffer`. Answers 0, with the report's length in *place; or a refusal's number, with its place in
 * *place and the buffer untouched. */
uint32_t diftanew_report(const uint8_t *file, size_t file_len, const uint32_t *prices, size_t prices_len,
                         uint32_t *scratch, size_t scratch_len, uint8_t *buffer, size_t buffer_len, uint64_t *place);

/* Where the numbers of figures lie: the three first, then DIFTANEW_FIGURES_LOOP of loop k from DIFTANEW_FIGURES_FIRST + DIFTANEW_FIGURES_LOOP * k on. */
enum {
    DIFTANEW_FIGURES_TICKS = 0,   /* the report's ticks; of a refused file the place */
    DIFTANEW_FIGURES_VARS = 1,    /* how many variables the script has: the length of a store that fits it */
    DIFTANEW_FIGURES_LOOPS = 2,   /* how many loops */
    DIFTANEW_FIGURES_FIRST = 3,
    DIFTANEW_FIGURES_LOOP = 7
};

/* Of a loop's seven numbers, by their place among them. The ends of a step that adds may be below 0: read them as int64_t, in two's complement. */
enum {
    DIFTANEW_LOOP_ROW = 0,        /* its head row, from 0 */
    DIFTANEW_LOOP_STEP = 1,       /* DIFTANEW_ADD, DIFTANEW_GROW or DIFTANEW_SHRINK */
    DIFTANEW_LOOP_FIRST_END = 2,
    DIFTANEW_LOOP_SECOND_END = 3,
    DIFTANEW_LOOP_TURNS = 4,      /* in one entry */
    DIFTANEW_LOOP_TOTAL = 5,      /* in the whole run */
    DIFTANEW_LOOP_EXACT = 6       /* 1 where the report says exact, 0 where it says most */
};

/* A loop's step. */
enum { DIFTANEW_ADD = 0, DIFTANEW_GROW = 1, DIFTANEW_SHRINK = 2 };

/* What the report of `file` with these prices says, as numbers. Answers 0, with the numbers in `answer` as the two lists above say; or a refusal's
 * number (that of the report, but 14, which is not asked), with its place in answer[0]. Numbers of the answer that are not named are 0. */
uint32_t diftanew_figures(const uint8_t *file, size_t file_len, const uint32_t *prices, size_t prices_len,
                          uint32_t *scratch, size_t scratch_len, uint64_t *answer);

/* Runs `file` on `store`, with the ticks of each row in `prices`, a byte for each pick (0 takes else) and an allowance of ticks: the run is spent
 * when the next price is more than what is left. A report of the same file and prices bounds the run. Answers 0, with the final store in `store` and
 *   answer[0] the ending, answer[1] its row, answer[2] the ticks, answer[3] the bytes used, answer[4] the number of loops, and for loop k in row
 *   order answer[5 + 3k] its head row, answer[6 + 3k] all its turns, answer[7 + 3k] the most in one entry;
 * or a refusal's number, with its place in answer[0] and the store untouched. Numbers of the answer that are not named are 0. */
uint32_t diftanew_run(const uint8_t *file, size_t file_len, const uint32_t *prices, size_t prices_len,
                      uint32_t *scratch, size_t scratch_len, int32_t *store, size_t store_len,
                      const uint8_t *picks, size_t picks_len, uint64_t allowance, uint64_t *answer);

/* Runs `file_count` scripts together, frame by frame, under one price list. Files, stores and picks are each lent end to end, with a list of their
 * lengths. In every frame each unfinished script gets `q` ticks and runs on until it finishes or its next price does not fit; what is left it carries
 * forward. A script whose report says T is finished by frame ceil(T/q), the first if T is 0, with the ending, store, ticks and turns of running alone
 * with allowance T. Answers 0, with the final stores in `stores`, the most ticks that all together took in one frame in answer[0], and for script i
 *   answer[1 + 54 i] the frame that it finished in, from 1, and from answer[2 + 54 i] on the 53 numbers of a run's answer;
 * or a refusal's number, the first refused script's own after 20, 1 and 16, with its place in answer[0], in answer[1] which script it is, from 1, or 0
 * where no script is meant (20, 1 and 16), and every store untouched. Numbers of the answer that are not named are 0. */
uint32_t diftanew_frames(const uint8_t *files, size_t files_len, const size_t *file_lens, size_t file_count,
                         int32_t *stores, size_t stores_len, const size_t *store_lens, size_t store_count,
                         const uint8_t *picks, size_t picks_len, const size_t *pick_lens, size_t pick_count,
                         const uint32_t *prices, size_t prices_len, uint64_t q, uint32_t *scratch, size_t scratch_len, uint64_t *answer);

/* A live run: frame by frame, with the picks as they come and the cues as they fire. Nothing is kept between calls but what the caller holds: file,
 * prices, store and a state of DIFTANEW_STATE numbers. Each call reads and judges the file again.
 *
 * Overwrites `state` with the beginning of the run of `file` from `store`, which stays as it is. Answers 0, with the report's ticks T in answer[0] and
 * the number of loops in answer[1]; or a refusal's number, with its place in answer[0] and the state untouched. */
uint32_t diftanew_start(const uint8_t *file, size_t file_len, const uint32_t *prices, size_t prices_len,
                        uint32_t *scratch, size_t scratch_len, const int32_t *store, size_t store_len,
                        uint64_t *state, size_t state_len, uint64_t *answer);

/* One frame of one script: gives it `q` ticks, 1,000,000 at most, and runs on until it has ended or gone out of range, its next price does not fit, a
 * pick has no byte, or a cue finds the list full. `picks` are used from the first; what is not used is the caller's to lend again. Each cue row that is
 * done puts its number at the end of the cues, in order; numbers past them keep their values. Answers 0, with store and state for the next step and
 *   answer[0] the status, answer[1] its row, answer[2] the ticks of this step, answer[3] of all, answer[4] the pick bytes used in this step, answer[5] in
 *   all, answer[6] the cues of this step, answer[7] the number of loops, and for loop k in row order answer[8 + 3k] its head row, answer[9 + 3k] all its
 *   turns, answer[10 + 3k] the most in one entry so far;
 * or a refusal's number, with its place in answer[0] and store, state and cues untouched. Numbers of the answer that are not named are 0. A script that
 * is finished takes nothing and answers the same; with the same q in all steps it is finished after ceil(T/q) steps (1 if T is 0) and as many more as
 * ended in "waits" or "full". */
uint32_t diftanew_step(const uint8_t *file, size_t file_len, const uint32_t *prices, size_t prices_len,
                       uint32_t *scratch, size_t scratch_len, int32_t *store, size_t store_len,
                       uint64_t *state, size_t state_len, uint64_t q, const uint8_t *picks, size_t picks_len,
                       uint32_t *cues, size_t cues_len, uint64_t *answer);

#ifdef __cplusplus
}
#endif

#endif
