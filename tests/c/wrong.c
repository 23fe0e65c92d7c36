/* The library made wrong: each function calls the true one, then spoils its answer as the variable WRONG says. tests/wrong_library.sh. */
#include "hep.h"

#include <stdlib.h>
#include <string.h>

uint32_t true_check(const uint8_t *, size_t);
uint32_t true_sizes(const uint8_t *, size_t, uint64_t *, size_t);
uint32_t true_run(const uint8_t *, size_t, const uint8_t *, size_t, uint8_t *, size_t, uint64_t *, size_t, uint8_t *, size_t, uint64_t *, size_t,
                  uint64_t *, size_t, uint8_t *, size_t, uint64_t *, size_t, uint8_t *, size_t, uint64_t *, size_t, uint8_t *, size_t);
size_t true_batch(const uint8_t *, size_t, uint8_t *, size_t);
uint32_t true_fill(const uint64_t *, size_t, uint64_t, uint64_t *, size_t);

static int wrong(const char *fault)
{
    const char *asked = getenv("WRONG");
    return asked && strcmp(asked, fault) == 0;
}

uint32_t hep_check(const uint8_t *image, size_t image_len)
{
    uint32_t answer = true_check(image, image_len);
    if (wrong("constant_as_a_cell") && answer == HEP_CONSTANT_FIELD)
        return HEP_CELL_FIELD;
    return wrong("left_over_accepted") && answer == HEP_BYTES_LEFT_OVER ? 0 : answer;
}

uint32_t hep_sizes(const uint8_t *image, size_t image_len, uint64_t *sizes, size_t sizes_len)
{
    uint32_t answer = true_sizes(image, image_len, sizes, sizes_len);
    if (wrong("refused_sizes_written") && answer == HEP_SHORT_BUFFER)
        sizes[0] = 0;
    return answer;
}

uint32_t hep_run(const uint8_t *image, size_t image_len, const uint8_t *schedule, size_t schedule_len,
                 uint8_t *constant_tags, size_t constant_tags_len, uint64_t *constant_words, size_t constant_words_len,
                 uint8_t *register_tags, size_t register_tags_len, uint64_t *register_words, size_t register_words_len,
                 uint64_t *program, size_t program_len,
                 uint8_t *data_tags, size_t data_tags_len, uint64_t *data_words, size_t data_words_len,
                 uint8_t *output, size_t output_len, uint64_t *counts, size_t counts_len, uint8_t *report, size_t report_len)
{
    if (wrong("an_item_more") && schedule_len == 65536)
        schedule_len--;
    if (wrong("last_item_missed") && schedule_len > 100)
        schedule_len--;
    if (wrong("list_before_buffers") && schedule_len > 65535)
        return HEP_LIST_TOO_LONG;
    uint32_t answer = true_run(image, image_len, schedule, schedule_len, constant_tags, constant_tags_len, constant_words, constant_words_len,
                               register_tags, register_tags_len, register_words, register_words_len, program, program_len, data_tags,
                               data_tags_len, data_words, data_words_len, output, output_len, counts, counts_len, report, report_len);
    if (wrong("refused_run_writes") && answer == HEP_ITEM_OUT_OF_RANGE)
        report[0] = 0;
    if (answer != HEP_ACCEPTED)
        return answer;
    if (wrong("a_step_miscounted") && counts[HEP_WAVED] > 30)
        counts[HEP_WAVED]--;
    if (wrong("a_try_missed") && counts[HEP_SFU_TRIES] > 2)
        counts[HEP_SFU_TRIES]--;
    if (wrong("a_trap_of_the_next_task") && counts[HEP_OWN(3) + HEP_TRAPPED] == 1 && counts[HEP_OWN(4) + HEP_TRAPPED] == 0) {
        counts[HEP_OWN(3) + HEP_TRAPPED] = 0;
        counts[HEP_OWN(4) + HEP_TRAPPED] = 1;
    }
    if (wrong("a_task_without_tries"))
        counts[HEP_OWN(7) + HEP_SFU_TRIES] = 0;
    if (wrong("unlisted_items_not_counted") && image[0] == 0)
        memset(counts + HEP_OWN(1), 0, (HEP_COUNTS - HEP_OWN(1)) * sizeof *counts);
    if (wrong("idle_of_another_unlisted_task") && image[0] == 1 && image[1] == 1) {
        uint64_t idle = counts[HEP_OWN(5) + HEP_IDLE];
        counts[HEP_OWN(5) + HEP_IDLE] = counts[HEP_OWN(6) + HEP_IDLE];
        counts[HEP_OWN(6) + HEP_IDLE] = idle;
    }
    if (wrong("a_count_beyond") && counts_len > HEP_COUNTS)
        counts[HEP_COUNTS] = 0;
    if (wrong("rare_bit_of_the_image") && counts[HEP_WAVED] > 30)
        output[counts[HEP_IMAGE_LEN] - 1] ^= 1;
    if (wrong("memory_beside_the_image") && data_words_len > 100)
        data_words[100] ^= 1;
    if (wrong("quality_beside_the_image") && constant_tags_len > 30)
        constant_tags[30] = 0;
    if (wrong("a_byte_beyond"))
        output[counts[HEP_IMAGE_LEN]] = 0;
    if (wrong("rare_letter_of_the_report") && counts[HEP_WAVED] > 30)
        report[0]++;
    return answer;
}

size_t hep_batch(const uint8_t *input, size_t input_len, uint8_t *output, size_t output_len)
{
    size_t length = true_batch(input, input_len, output, output_len);
    if (wrong("no_room_for_the_report") && length == 0 && output_len > 0)
        output[0] = 'R';
    if (wrong("refusal_one_off") && length == 3 && output[1] == '6')
        output[1] = '5';
    return length;
}

uint32_t hep_fill(const uint64_t *needs, size_t needs_len, uint64_t tries, uint64_t *filling, size_t filling_len)
{
    if (wrong("one_try_more") && tries == 5)
        tries++;
    uint32_t answer = true_fill(needs, needs_len, tries, filling, filling_len);
    if (wrong("jobs_as_tries") && answer == HEP_BAD_JOBS && tries == 0)
        return HEP_NO_TRIES;
    if (wrong("refused_filling_written") && answer == HEP_SHORT_BUFFER)
        filling[0] = 0;
    if (answer != HEP_ACCEPTED)
        return answer;
    if (wrong("last_of_the_best") && needs_len > 2 && needs[1] == needs[2] && filling[HEP_CHOICE] == 2)
        filling[HEP_CHOICE] = 4;
    if (wrong("ceiling_of_the_sum"))
        filling[HEP_CEILING] = filling[HEP_SUM];
    return answer;
}
