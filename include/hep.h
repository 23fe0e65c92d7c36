/*
 * The emulator of a HEP process execution module, from whole images to whole images.
 *
 * Each function below is proved to do what is said at it (crates/hep_c; link target/staticlib/libhep_c.a, which tools/archive.sh
 * writes). None keeps anything between calls or allocates. The archive wants memcpy, memmove and memset of the program that it is linked to.
 *
 * A slice is lent as its address and its length, in elements. The proof takes for granted, and so the caller sees to it, that
 *   - an address is not null, is aligned for its elements, and that many elements are there, even where the length is 0;
 *   - no slice that is written (not const) overlaps another slice of the same call.
 * Nothing else is asked: every function answers any bytes and any lengths.
 *
 * An answer of 0 means that the call did what it says. Any other is the number of a refusal, the first that applies in the order said at
 * the function, where the order of the bytes decides between 1, 2, 3, 12, 14 and 13; then every lent element is as it was.
 */
#ifndef HEP_H
#define HEP_H

#include <stddef.h>
#include <stdint.h>

/* Of this header and of the archive that it was installed with: 0.N.0 has the requests L1 to LN. */
#define HEP_VERSION "0.7.0"

#ifdef __cplusplus
extern "C" {
#endif

enum hep_refusal {
    HEP_ACCEPTED = 0,
    HEP_INPUT_ENDS = 1,          /* the image ends before its last section is whole */
    HEP_COUNT_OVER_LIMIT = 2,    /* a count is over its limit */
    HEP_TASK_FIELD = 3,          /* a field of the task section is out of its range: of a row */
    HEP_PROCESS_FIELD = 12,      /* a field of the process section is out of its range: the flag, or of a process */
    HEP_CONSTANT_FIELD = 14,     /* a quality of a constant is out of its range */
    HEP_CELL_FIELD = 13,         /* a tag of a register or a state of a data word is out of its range */
    HEP_BYTES_LEFT_OVER = 4,     /* bytes stand after the last section */
    HEP_WINDOW_PAST_MEMORY = 5,  /* a window that isn't empty ends past its memory */
    HEP_PROCESSES_CLASH = 6,     /* a process number stands twice, or 64 processes with flag 0 */
    HEP_SHORT_BUFFER = 7,        /* a slice to be filled is too short */
    HEP_LIST_TOO_LONG = 9,       /* a schedule of over 65,535 items */
    HEP_ITEM_OUT_OF_RANGE = 10,  /* an item of the schedule is not 1 to 7 */
    HEP_BAD_JOBS = 17,           /* more than 15 jobs, or a need that is odd, below 2 or above 2,048 */
    HEP_NO_TRIES = 18            /* zero tries */
};

/* Lengths that hep_sizes, hep_run and hep_fill ask for. */
#define HEP_SIZES 5
#define HEP_COUNTS 42
#define HEP_FILLING 4
#define HEP_REPORT_ROOM 2048
#define HEP_OUTPUT_ROOM(image_len) ((image_len) + 640)

/* Places in `sizes`. */
enum { HEP_ROWS, HEP_CONSTANTS, HEP_REGISTERS, HEP_PROGRAM, HEP_DATA_WORDS };

/* Places in `counts`: of the run, then the two lengths. */
enum { HEP_EXECUTED, HEP_WAVED, HEP_TRAPPED, HEP_IDLE, HEP_SFU_TRIES, HEP_IMAGE_LEN, HEP_REPORT_LEN };

/* The place in `counts` of a task's own, task 1 to 7: counts[HEP_OWN(3) + HEP_WAVED] is how many items of task 3 were waved. */
#define HEP_OWN(task) (HEP_REPORT_LEN + 1 + 5 * ((task) - 1))

/* Places in `filling`. */
enum { HEP_CHOICE, HEP_SUM, HEP_TRIES, HEP_CEILING };

/* 0 if the image is accepted, else 1, 2, 3, 12, 14, 13, 4, 5 or 6. */
uint32_t hep_check(const uint8_t *image, size_t image_len);

/*
 * The counts of the image's rows, constants, registers, program words and data words go to the first five of `sizes`; the others stay.
 * Refused: as hep_check, then 7 if `sizes` is shorter than HEP_SIZES.
 */
uint32_t hep_sizes(const uint8_t *image, size_t image_len, uint64_t *sizes, size_t sizes_len);

/*
 * Reads the image, runs the schedule on it, and writes the image after the run. Each item first tries the head of its task's SFU queue, if
 * there is one, then steps the head of the task's queue; where that was empty before the try, or the try traps, no step follows.
 *
 * The memories of the state are lent, each at least as long as its count by hep_sizes: tags (qualities) and words of constants have one
 * count, and so have tags and words of registers and those of data words. After the run they hold the state, in as many first places as
 * the counts say; the places beyond stay.
 *
 * `output`, of at least HEP_OUTPUT_ROOM(image_len) bytes, starts with the image after the run. `report`, of at least HEP_REPORT_ROOM bytes,
 * starts with the report of the batch program. `counts`, of at least HEP_COUNTS, starts with how many items were executed, waved, trapped
 * and idle, how many tries they made, then the lengths of that image and of that report; behind them stand these five of each task's own
 * items, task 1 to 7, unlisted ones too. Each of the five adds up over the tasks to that of the run. What lies beyond stays.
 *
 * Refused: as hep_check, then 7 if a slice is shorter than said, then 9, then 10.
 */
uint32_t hep_run(const uint8_t *image, size_t image_len,
                 const uint8_t *schedule, size_t schedule_len,
                 uint8_t *constant_tags, size_t constant_tags_len,
                 uint64_t *constant_words, size_t constant_words_len,
                 uint8_t *register_tags, size_t register_tags_len,
                 uint64_t *register_words, size_t register_words_len,
                 uint64_t *program, size_t program_len,
                 uint8_t *data_tags, size_t data_tags_len,
                 uint64_t *data_words, size_t data_words_len,
                 uint8_t *output, size_t output_len,
                 uint64_t *counts, size_t counts_len,
                 uint8_t *report, size_t report_len);

/*
 * The batch program: the bytes of its standard input to those of its standard output, a refusal being a line such as `R3`. They go to the
 * front of `output`, and their number is the answer. If `output` is too short, all of it stays and the answer is 0; 2,048 bytes are enough.
 * It takes 314 KB of stack, hep_run 36 KB (x86-64: a thread's stack filled with a mark, on the printed case; 4 KB are the thread's own).
 */
size_t hep_batch(const uint8_t *input, size_t input_len, uint8_t *output, size_t output_len);

/*
 * Which of at most 15 jobs go into a module together, by their register needs: at most seven, whose needs sum to at most 2,048 and to as
 * much as possible. A choice is a binary number, the first job being the lowest bit; choices are tried from 0 upward, until all or `tries`
 * are tried.
 *
 * `filling`, of at least HEP_FILLING, starts with the first of the best choices tried, its sum, the tries made and the ceiling: the smaller
 * of 2,048 and the sum of the seven largest needs. What lies beyond stays. If all were tried, no choice that keeps the rules has a larger
 * sum; in any case none has one above the ceiling.
 *
 * Refused: 17, then 18, then 7 if `filling` is shorter than HEP_FILLING.
 */
uint32_t hep_fill(const uint64_t *needs, size_t needs_len, uint64_t tries, uint64_t *filling, size_t filling_len);

#ifdef __cplusplus
}
#endif

#endif
