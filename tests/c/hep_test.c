/* Calls each function of include/hep.h: the printed case of document 01, each refusal at both sides of its boundary, what stays. */
#include "hep.h"

#include <stdio.h>
#include <stdlib.h>
#include <string.h>

static int checks, failed;

static void expect(int holds, const char *what, int line)
{
    checks++;
    if (!holds) {
        failed++;
        printf("line %d: %s\n", line, what);
    }
}

#define EXPECT(x) expect((x), #x, __LINE__)

/* ---- images, from the folder that is the program's argument; run.sh makes them */

struct bytes {
    uint8_t at[1024];
    size_t len;
};

static const char *folder;

static struct bytes file(const char *name)
{
    char path[4096];
    struct bytes b;
    snprintf(path, sizeof path, "%s/%s.bin", folder, name);
    FILE *f = fopen(path, "rb");
    if (!f) {
        perror(path);
        exit(2);
    }
    b.len = fread(b.at, 1, sizeof b.at, f);
    fclose(f);
    return b;
}

static const char printed_report[] = "1 1 14 00000 E0 W0 T1 I0 S0\nE0 W0 T1 I0 S0 CF0\n";

/* ---- buffers, each in its own block so that a sanitizer sees its ends; one element more than is lent holds a mark */

enum { CT, CW, RT, RW, P, DT, DW, OUT, COUNTS, REPORT, BUFFERS };
static const size_t width[BUFFERS] = {1, 8, 1, 8, 8, 1, 8, 1, 8, 1};
#define MARK 0xA5

struct buffers {
    void *at[BUFFERS];
    size_t len[BUFFERS];
};

static struct buffers make(const uint64_t *sizes, size_t image_len)
{
    struct buffers b;
    b.len[CT] = b.len[CW] = sizes[HEP_CONSTANTS];
    b.len[RT] = b.len[RW] = sizes[HEP_REGISTERS];
    b.len[P] = sizes[HEP_PROGRAM];
    b.len[DT] = b.len[DW] = sizes[HEP_DATA_WORDS];
    b.len[OUT] = HEP_OUTPUT_ROOM(image_len);
    b.len[COUNTS] = HEP_COUNTS;
    b.len[REPORT] = HEP_REPORT_ROOM;
    for (int i = 0; i < BUFFERS; i++) {
        b.at[i] = malloc((b.len[i] + 1) * width[i]);
        memset(b.at[i], MARK, (b.len[i] + 1) * width[i]);
    }
    return b;
}

static void discard(struct buffers *b)
{
    for (int i = 0; i < BUFFERS; i++)
        free(b->at[i]);
}

static int marked(const uint8_t *p, size_t n)
{
    while (n-- > 0)
        if (p[n] != MARK)
            return 0;
    return 1;
}

static int all_stay(const struct buffers *b)
{
    for (int i = 0; i < BUFFERS; i++)
        if (!marked(b->at[i], (b->len[i] + 1) * width[i]))
            return 0;
    return 1;
}

static int ends_stay(const struct buffers *b)
{
    for (int i = 0; i < BUFFERS; i++)
        if (!marked((const uint8_t *)b->at[i] + b->len[i] * width[i], width[i]))
            return 0;
    return 1;
}

static uint32_t run(const uint8_t *image, size_t image_len, const uint8_t *schedule, size_t items, struct buffers *b)
{
    return hep_run(image, image_len, schedule, items, b->at[CT], b->len[CT], b->at[CW], b->len[CW], b->at[RT], b->len[RT],
                   b->at[RW], b->len[RW], b->at[P], b->len[P], b->at[DT], b->len[DT], b->at[DW], b->len[DW], b->at[OUT], b->len[OUT],
                   b->at[COUNTS], b->len[COUNTS], b->at[REPORT], b->len[REPORT]);
}

/* That a task's own counts are these. */
static int own_are(const uint64_t *counts, int task, uint64_t executed, uint64_t waved, uint64_t trapped, uint64_t idle, uint64_t tries)
{
    const uint64_t *own = counts + HEP_OWN(task);
    return own[HEP_EXECUTED] == executed && own[HEP_WAVED] == waved && own[HEP_TRAPPED] == trapped && own[HEP_IDLE] == idle
           && own[HEP_SFU_TRIES] == tries;
}

/* That each count adds up over the tasks to that of the run. */
static int own_add_up(const uint64_t *counts)
{
    uint64_t sums[HEP_SFU_TRIES + 1] = {0};
    for (int i = 0; i < 7 * (HEP_SFU_TRIES + 1); i++)
        sums[i % (HEP_SFU_TRIES + 1)] += counts[HEP_OWN(1) + i];
    return memcmp(sums, counts, sizeof sums) == 0;
}

/* ---- the printed case */

static void test_batch(void)
{
    struct bytes input = file("printed");
    uint8_t output[HEP_REPORT_ROOM];
    memset(output, MARK, sizeof output);
    EXPECT(hep_batch(input.at, input.len, output, sizeof output) == strlen(printed_report));
    EXPECT(memcmp(output, printed_report, strlen(printed_report)) == 0);
    EXPECT(marked(output + strlen(printed_report), sizeof output - strlen(printed_report)));
    memset(output, MARK, sizeof output);
    EXPECT(hep_batch(input.at, input.len, output, strlen(printed_report) - 1) == 0);
    EXPECT(marked(output, sizeof output));
    EXPECT(hep_batch(input.at, 0, output, sizeof output) == 3 && memcmp(output, "R1\n", 3) == 0);
}

static void test_printed(void)
{
    struct bytes image = file("one"), after = file("after");
    uint64_t sizes[HEP_SIZES];
    EXPECT(hep_check(image.at, image.len) == HEP_ACCEPTED);
    EXPECT(hep_sizes(image.at, image.len, sizes, HEP_SIZES) == HEP_ACCEPTED);
    EXPECT(sizes[HEP_ROWS] == 1 && sizes[HEP_CONSTANTS] == 0 && sizes[HEP_REGISTERS] == 0);
    EXPECT(sizes[HEP_PROGRAM] == 0 && sizes[HEP_DATA_WORDS] == 0);

    struct buffers b = make(sizes, image.len);
    const uint8_t schedule[] = {1};
    EXPECT(run(image.at, image.len, schedule, 1, &b) == HEP_ACCEPTED);
    const uint64_t *counts = b.at[COUNTS];
    EXPECT(counts[HEP_EXECUTED] == 0 && counts[HEP_WAVED] == 0 && counts[HEP_TRAPPED] == 1 && counts[HEP_IDLE] == 0);
    EXPECT(counts[HEP_SFU_TRIES] == 0);
    EXPECT(own_are(counts, 1, 0, 0, 1, 0, 0) && own_add_up(counts));
    EXPECT(counts[HEP_IMAGE_LEN] == image.len && image.len == after.len);
    EXPECT(counts[HEP_REPORT_LEN] == strlen(printed_report));
    EXPECT(memcmp(b.at[REPORT], printed_report, strlen(printed_report)) == 0);
    EXPECT(memcmp(b.at[OUT], after.at, after.len) == 0 && memcmp(image.at, after.at, after.len) != 0);
    EXPECT(ends_stay(&b));
    discard(&b);
}

/* ---- a run that makes the image longer, and one that goes on from the image it left */

static void test_longer(void)
{
    struct bytes image = file("full");
    uint64_t sizes[HEP_SIZES];
    const uint8_t schedule[] = {1, 1};
    EXPECT(hep_sizes(image.at, image.len, sizes, HEP_SIZES) == HEP_ACCEPTED);
    EXPECT(sizes[HEP_ROWS] == 1 && sizes[HEP_CONSTANTS] == 2 && sizes[HEP_REGISTERS] == 2);
    EXPECT(sizes[HEP_PROGRAM] == 16 && sizes[HEP_DATA_WORDS] == 32);

    struct buffers once = make(sizes, image.len), twice = make(sizes, image.len);
    EXPECT(run(image.at, image.len, schedule, 1, &once) == HEP_ACCEPTED);
    const uint64_t *counts = once.at[COUNTS];
    size_t longer = counts[HEP_IMAGE_LEN];
    EXPECT(counts[HEP_EXECUTED] == 1 && counts[HEP_TRAPPED] == 0);
    EXPECT(longer == image.len + 10);
    EXPECT(hep_check(once.at[OUT], longer) == HEP_ACCEPTED);
    EXPECT(((uint8_t *)once.at[CT])[0] == 0 && ((uint64_t *)once.at[CW])[0] == 0);
    EXPECT(((uint8_t *)once.at[CT])[1] == 5 && ((uint64_t *)once.at[CW])[1] == 9);
    EXPECT(((uint8_t *)once.at[DT])[0] == 1 && ((uint64_t *)once.at[DW])[0] == 77);
    EXPECT(((uint64_t *)once.at[P])[0] == UINT64_C(0x3970000040004000));
    EXPECT(marked((uint8_t *)once.at[OUT] + longer, once.len[OUT] + 1 - longer));
    EXPECT(ends_stay(&once));

    EXPECT(run(image.at, image.len, schedule, 2, &twice) == HEP_ACCEPTED);
    struct buffers on = make(sizes, longer);
    EXPECT(run(once.at[OUT], longer, schedule, 1, &on) == HEP_ACCEPTED);
    EXPECT(((uint64_t *)on.at[COUNTS])[HEP_IMAGE_LEN] == ((uint64_t *)twice.at[COUNTS])[HEP_IMAGE_LEN]);
    EXPECT(memcmp(on.at[OUT], twice.at[OUT], ((uint64_t *)on.at[COUNTS])[HEP_IMAGE_LEN]) == 0);
    discard(&once);
    discard(&twice);
    discard(&on);
}

/* ---- waiting.hep: a process that waits for a data word goes to the SFU queue, and is tried until the other one stores it */

static void test_tries(void)
{
    struct bytes image = file("waiting");
    uint64_t sizes[HEP_SIZES];
    const uint8_t schedule[] = {3, 3, 3, 3, 3, 3};
    EXPECT(hep_sizes(image.at, image.len, sizes, HEP_SIZES) == HEP_ACCEPTED);
    struct buffers once = make(sizes, image.len), all = make(sizes, image.len);
    EXPECT(run(image.at, image.len, schedule, 1, &once) == HEP_ACCEPTED);
    const uint64_t *counts = once.at[COUNTS];
    const uint8_t *after = once.at[OUT];
    EXPECT(counts[HEP_WAVED] == 1 && counts[HEP_SFU_TRIES] == 0 && counts[HEP_IMAGE_LEN] == image.len);
    /* Its processes are at 31 and 41: PT, then the task byte. */
    EXPECT(after[31] == 4 && after[32] == 3 && after[41] == 7 && after[42] == 0x13);

    EXPECT(run(image.at, image.len, schedule, 6, &all) == HEP_ACCEPTED);
    static const char report[] = "3 1 -- ----- E5 W1 T0 I0 S4\nE5 W1 T0 I0 S4 CF0\n";
    counts = all.at[COUNTS];
    EXPECT(counts[HEP_EXECUTED] == 5 && counts[HEP_WAVED] == 1 && counts[HEP_TRAPPED] == 0 && counts[HEP_IDLE] == 0);
    EXPECT(counts[HEP_SFU_TRIES] == 4 && counts[HEP_REPORT_LEN] == strlen(report));
    EXPECT(own_are(counts, 3, 5, 1, 0, 0, 4) && own_add_up(counts));
    EXPECT(memcmp(all.at[REPORT], report, strlen(report)) == 0);
    EXPECT(counts[HEP_IMAGE_LEN] == image.len - 10 && ((uint64_t *)all.at[RW])[0] == 5);
    EXPECT(ends_stay(&once) && ends_stay(&all));

    struct buffers on = make(sizes, image.len);
    EXPECT(run(once.at[OUT], image.len, schedule, 5, &on) == HEP_ACCEPTED);
    EXPECT(((uint64_t *)on.at[COUNTS])[HEP_SFU_TRIES] == 4);
    EXPECT(memcmp(on.at[OUT], all.at[OUT], counts[HEP_IMAGE_LEN]) == 0);
    discard(&once);
    discard(&all);
    discard(&on);
}

/* ---- items of listed and unlisted tasks among each other: own counts stand at the task's number, from 1 to 7 */

static void test_own(void)
{
    struct bytes image = file("waiting");
    uint64_t sizes[HEP_SIZES];
    const uint8_t schedule[] = {3, 1, 3, 7, 3, 7, 3, 2, 7, 3, 3};
    EXPECT(HEP_OWN(1) == HEP_REPORT_LEN + 1 && HEP_OWN(8) == HEP_COUNTS);
    EXPECT(hep_sizes(image.at, image.len, sizes, HEP_SIZES) == HEP_ACCEPTED);
    struct buffers b = make(sizes, image.len);
    EXPECT(run(image.at, image.len, schedule, sizeof schedule, &b) == HEP_ACCEPTED);
    const uint64_t *counts = b.at[COUNTS];
    EXPECT(own_are(counts, 1, 0, 0, 0, 1, 0) && own_are(counts, 2, 0, 0, 0, 1, 0) && own_are(counts, 3, 5, 1, 0, 0, 4));
    EXPECT(own_are(counts, 4, 0, 0, 0, 0, 0) && own_are(counts, 5, 0, 0, 0, 0, 0) && own_are(counts, 6, 0, 0, 0, 0, 0));
    EXPECT(own_are(counts, 7, 0, 0, 0, 3, 0) && own_add_up(counts));
    static const char report[] = "3 1 -- ----- E5 W1 T0 I0 S4\nE5 W1 T0 I5 S4 CF0\n";
    EXPECT(counts[HEP_REPORT_LEN] == strlen(report) && memcmp(b.at[REPORT], report, strlen(report)) == 0);
    EXPECT(ends_stay(&b));
    discard(&b);
}

/* ---- the quality of full.hep's first constant, at 43, under its process's UTM, at 37 */

static void quality(uint8_t utm, uint64_t trapped)
{
    struct bytes image = file("full");
    uint64_t sizes[HEP_SIZES];
    const uint8_t schedule[] = {1};
    image.at[37] = utm;
    image.at[43] = 5;
    EXPECT(hep_sizes(image.at, image.len, sizes, HEP_SIZES) == HEP_ACCEPTED);
    struct buffers b = make(sizes, image.len);
    EXPECT(run(image.at, image.len, schedule, 1, &b) == HEP_ACCEPTED);
    EXPECT(((uint64_t *)b.at[COUNTS])[HEP_TRAPPED] == trapped);
    EXPECT(((uint8_t *)b.at[CT])[0] == 5);
    if (trapped)
        EXPECT(memcmp(b.at[REPORT], "1 1 1E 00000 E0 W0 T1 I0 S0\n", 28) == 0);
    EXPECT(ends_stay(&b));
    discard(&b);
}

static void test_qualities(void)
{
    quality(0x04, 1);
    quality(0xFB, 0);
}

/* ---- refusals: the number, and that every lent element stays */

static void refused(const uint8_t *image, size_t len, uint32_t number)
{
    uint64_t sizes[HEP_SIZES];
    const uint64_t none[HEP_SIZES] = {0};
    struct buffers b = make(none, len);
    memset(sizes, MARK, sizeof sizes);
    EXPECT(hep_check(image, len) == number);
    EXPECT(hep_sizes(image, len, sizes, HEP_SIZES) == number);
    EXPECT(hep_sizes(image, len, sizes, 0) == number);
    EXPECT(marked((const uint8_t *)sizes, sizeof sizes));
    const uint8_t schedule[] = {9};
    EXPECT(run(image, len, schedule, 1, &b) == number);
    b.len[COUNTS] = 0;
    EXPECT(run(image, len, schedule, 1, &b) == number);
    b.len[COUNTS] = HEP_COUNTS;
    EXPECT(all_stay(&b));
    discard(&b);
}

static void test_images_refused(void)
{
    const uint32_t numbers[] = {HEP_INPUT_ENDS, HEP_COUNT_OVER_LIMIT, HEP_TASK_FIELD, HEP_PROCESS_FIELD,
                                HEP_CONSTANT_FIELD, HEP_CELL_FIELD, HEP_BYTES_LEFT_OVER, HEP_WINDOW_PAST_MEMORY,
                                HEP_PROCESSES_CLASH};
    for (size_t i = 0; i < sizeof numbers / sizeof numbers[0]; i++) {
        char name[8];
        snprintf(name, sizeof name, "R%u", (unsigned)numbers[i]);
        struct bytes image = file(name);
        refused(image.at, image.len, numbers[i]);
    }
    struct bytes image = file("one"), two = file("two");
    refused(image.at, image.len - 1, HEP_INPUT_ENDS);
    image.at[image.len] = 0;
    refused(image.at, image.len + 1, HEP_BYTES_LEFT_OVER);
    EXPECT(hep_check(two.at, two.len) == HEP_ACCEPTED);
}

/* Bad fields of full.hep's image: its row is at 1, flag 30, process 31, constants 43, registers 63, data words 217. The first decides. */
static void test_sections(void)
{
    static const struct {
        size_t place;
        uint8_t value;
        uint32_t number;
    } bad[] = {
        {1, 0, HEP_TASK_FIELD},      {26, 0x10, HEP_TASK_FIELD},    {30, 2, HEP_PROCESS_FIELD}, {38, 0x10, HEP_PROCESS_FIELD},
        {43, 7, HEP_CONSTANT_FIELD}, {52, 0xFF, HEP_CONSTANT_FIELD}, {63, 7, HEP_CELL_FIELD},   {72, 15, HEP_CELL_FIELD},
        {217, 2, HEP_CELL_FIELD},    {496, 2, HEP_CELL_FIELD},
    };
    struct bytes image = file("full");
    for (size_t i = sizeof bad / sizeof bad[0]; i-- > 0;) {
        image.at[bad[i].place] = bad[i].value;
        refused(image.at, image.len, bad[i].number);
    }
}

/* Task bytes of full.hep's process, at 32: its task, plus hex 10 in the SFU queue. */
static void test_task_bytes(void)
{
    struct bytes image = file("full");
    for (unsigned byte = 0; byte < 256; byte++) {
        image.at[32] = (uint8_t)byte;
        if (byte == 0x01 || byte == 0x11)
            EXPECT(hep_check(image.at, image.len) == HEP_ACCEPTED);
        else
            refused(image.at, image.len, HEP_PROCESS_FIELD);
    }
}

static void test_buffers_refused(void)
{
    struct bytes image = file("full");
    uint64_t sizes[HEP_SIZES];
    memset(sizes, MARK, sizeof sizes);
    EXPECT(hep_sizes(image.at, image.len, sizes, HEP_SIZES - 1) == HEP_SHORT_BUFFER);
    EXPECT(marked((const uint8_t *)sizes, sizeof sizes));
    EXPECT(hep_sizes(image.at, image.len, sizes, HEP_SIZES) == HEP_ACCEPTED);

    struct buffers b = make(sizes, image.len);
    const uint8_t out_of_range[] = {1, 8};
    for (int i = 0; i < BUFFERS; i++) {
        b.len[i]--;
        EXPECT(run(image.at, image.len, out_of_range, 2, &b) == HEP_SHORT_BUFFER);
        b.len[i]++;
    }
    EXPECT(all_stay(&b));
    discard(&b);
}

static void test_schedules_refused(void)
{
    struct bytes image = file("one");
    uint64_t sizes[HEP_SIZES];
    EXPECT(hep_sizes(image.at, image.len, sizes, HEP_SIZES) == HEP_ACCEPTED);
    struct buffers b = make(sizes, image.len);
    uint8_t *schedule = malloc(65536);
    memset(schedule, 7, 65536);
    schedule[65535] = 8;
    EXPECT(run(image.at, image.len, schedule, 65536, &b) == HEP_LIST_TOO_LONG);
    schedule[65534] = 0;
    EXPECT(run(image.at, image.len, schedule, 65535, &b) == HEP_ITEM_OUT_OF_RANGE);
    schedule[65534] = 8;
    EXPECT(run(image.at, image.len, schedule, 65535, &b) == HEP_ITEM_OUT_OF_RANGE);
    EXPECT(all_stay(&b));
    schedule[65534] = 7;
    EXPECT(run(image.at, image.len, schedule, 65535, &b) == HEP_ACCEPTED);
    EXPECT(((uint64_t *)b.at[COUNTS])[HEP_IDLE] == 65535);
    EXPECT(own_are(b.at[COUNTS], 7, 0, 0, 0, 65535, 0) && own_add_up(b.at[COUNTS]));
    EXPECT(memcmp(b.at[OUT], image.at, image.len) == 0);
    free(schedule);
    discard(&b);
}

/* ---- jobs that fill a module */

/* 0 and these numbers, or the number of a refusal and all places stay; of the five places one is not lent. */
static void filled(const uint64_t *needs, size_t jobs, uint64_t tries, uint32_t number, uint64_t choice, uint64_t sum, uint64_t made,
                   uint64_t ceiling)
{
    uint64_t filling[HEP_FILLING + 1];
    memset(filling, MARK, sizeof filling);
    EXPECT(hep_fill(needs, jobs, tries, filling, HEP_FILLING - 1) == (number ? number : (uint32_t)HEP_SHORT_BUFFER));
    EXPECT(marked((const uint8_t *)filling, sizeof filling));
    EXPECT(hep_fill(needs, jobs, tries, filling, HEP_FILLING) == number);
    if (number == HEP_ACCEPTED) {
        EXPECT(filling[HEP_CHOICE] == choice && filling[HEP_SUM] == sum);
        EXPECT(filling[HEP_TRIES] == made && filling[HEP_CEILING] == ceiling);
        EXPECT(marked((const uint8_t *)(filling + HEP_FILLING), sizeof filling[0]));
    } else {
        EXPECT(marked((const uint8_t *)filling, sizeof filling));
    }
}

static void test_fillings(void)
{
    static const uint64_t first[] = {1000, 1048, 1048}, eight[] = {2, 4, 6, 8, 10, 12, 14, 16};
    static const uint64_t full[] = {1024, 1024}, over[] = {1026, 1024};
    filled(first, 0, 1, HEP_ACCEPTED, 0, 0, 1, 0);
    filled(first, 3, 3, HEP_ACCEPTED, 2, 1048, 3, 2048);
    filled(first, 3, 4, HEP_ACCEPTED, 3, 2048, 4, 2048);
    filled(first, 3, 8, HEP_ACCEPTED, 3, 2048, 8, 2048);
    filled(first, 3, UINT64_MAX, HEP_ACCEPTED, 3, 2048, 8, 2048);
    filled(eight, 8, 255, HEP_ACCEPTED, 254, 70, 255, 70);
    filled(eight, 8, 254, HEP_ACCEPTED, 253, 68, 254, 70);
    filled(full, 2, 4, HEP_ACCEPTED, 3, 2048, 4, 2048);
    filled(over, 2, 4, HEP_ACCEPTED, 1, 1026, 4, 2048);
}

static void test_fillings_refused(void)
{
    uint64_t needs[16];
    for (int i = 0; i < 16; i++)
        needs[i] = 2;
    filled(needs, 15, 1, HEP_ACCEPTED, 0, 0, 1, 14);
    filled(needs, 15, 0, HEP_NO_TRIES, 0, 0, 0, 0);
    filled(needs, 16, 1, HEP_BAD_JOBS, 0, 0, 0, 0);
    filled(needs, 16, 0, HEP_BAD_JOBS, 0, 0, 0, 0);
    static const uint64_t bad[] = {0, 1, 3, 2047, 2049, 2050, UINT64_MAX, UINT64_MAX - 1};
    for (size_t i = 0; i < sizeof bad / sizeof bad[0]; i++) {
        needs[14] = bad[i];
        filled(needs, 15, 0, HEP_BAD_JOBS, 0, 0, 0, 0);
        filled(needs, 14, 0, HEP_NO_TRIES, 0, 0, 0, 0);
    }
    needs[0] = 2048;
    filled(needs, 1, 2, HEP_ACCEPTED, 1, 2048, 2, 2048);
}

int main(int argc, char **argv)
{
    if (argc != 2) {
        fprintf(stderr, "usage: hep_test FOLDER\n");
        return 2;
    }
    folder = argv[1];
    test_batch();
    test_printed();
    test_longer();
    test_tries();
    test_own();
    test_qualities();
    test_images_refused();
    test_sections();
    test_task_bytes();
    test_buffers_refused();
    test_schedules_refused();
    test_fillings();
    test_fillings_refused();
    printf("c: %d checks, %d failed\n", checks, failed);
    return failed != 0;
}
