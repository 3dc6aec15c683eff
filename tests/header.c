/* include/sildrokk.h as a C host uses it: document 01's first input as a run and event by event, refused makings, each bad field of an
   event, WP moved where it is to be still and where not, selections as bytes, states and results of other lengths, an image with an
   unused byte set, and several models side by side. */

#include "sildrokk.h"
#include <stdio.h>
#include <string.h>

/* A model as a host holds it; only parts 0 and 3 are made here. */
struct model {
    uint8_t state[SILDROKK_STATE];
    uint8_t memory[8192];
    size_t size;
};

static const uint8_t first_input[] = {0x01, 0x19, 0x04, 0x18, 0x03};
static const uint8_t power_on[] = {0x01, 0x19};
static const uint8_t wren[] = {0x06};
static const uint8_t rdsr[] = {0x05, 0x00};
static const uint8_t write_11[] = {0x02, 0x00, 0x00, 0x11};
static int differs;

/* A line for each thing that is not as it should be. */
static void check(int right, const char *what)
{
    if (!right) {
        printf("header: differs: %s\n", what);
        differs = 1;
    }
}

/* Part 0 or 3 with no pins and bits, and a memory of zeros. */
static struct model made(uint32_t part)
{
    struct model it = {{0}, {0}, part == 3 ? 8192 : 4096};

    memset(it.state, 0xa5, sizeof it.state);
    check(sildrokk_make(part, 0, 0, it.state, sizeof it.state) == 0, "a making");
    return it;
}

/* One event; its answer and flag are in the result. */
static uint8_t event(struct model *it, const uint8_t *bytes, size_t length, uint8_t *result)
{
    memset(result, 0xa5, SILDROKK_RESULT);
    return sildrokk_event(it->state, sizeof it->state, bytes, length, it->memory, it->size, result, SILDROKK_RESULT);
}

/* A selection as bytes with WP# high. */
static uint8_t select_bytes(struct model *it, const uint8_t *input, size_t length, uint8_t *output, size_t room, uint8_t *result)
{
    memset(result, 0xa5, SILDROKK_RESULT);
    return sildrokk_select(it->state, sizeof it->state, 1, input, length, output, room, it->memory, it->size,
                           result, SILDROKK_RESULT);
}

/* Whether a run of the trace on part 0 or 3, just made, gives this number, count, offset and flag offset, and zeros behind them. */
static int gives(uint32_t part, const uint8_t *trace, size_t length, uint8_t number, uint8_t count, uint8_t offset, uint8_t flag)
{
    struct model it = made(part);
    const uint8_t numbers[SILDROKK_RESULT] = {[7] = count, [15] = offset, [23] = flag};
    uint8_t result[SILDROKK_RESULT];

    memset(result, 0xa5, sizeof result);
    return sildrokk_run(it.state, sizeof it.state, trace, length, UINT64_MAX, it.memory, it.size, result, sizeof result) == number
        && memcmp(result, numbers, sizeof result) == 0;
}

/* Document 01's first input as one run, and event by event: nothing is driven, and the part is again as it was made. */
static void inputs(void)
{
    static const uint8_t all_of_it[SILDROKK_RESULT] = {[7] = 3, [15] = 5, [23] = 5};
    static const uint8_t nothing_driven[4] = {2, 2, 2, 0xa5};
    static const uint8_t quiet[SILDROKK_RESULT] = {2, 0};
    struct model new = made(0), run = new, single = new;
    uint8_t answers[4] = {0xa5, 0xa5, 0xa5, 0xa5}, result[SILDROKK_RESULT];
    size_t at;

    check(sildrokk_replay(run.state, sizeof run.state, first_input, sizeof first_input, UINT64_MAX, run.memory, run.size,
                          answers, sizeof answers, result, sizeof result) == 0, "the first input");
    check(memcmp(answers, nothing_driven, sizeof answers) == 0, "its answers");
    check(memcmp(result, all_of_it, sizeof result) == 0, "its result");
    check(memcmp(run.state, new.state, sizeof new.state) == 0, "its state");
    for (at = 0; at < sizeof first_input; at += 2) {
        check(event(&single, first_input + at, sizeof first_input - at, result) == 0, "an event of it");
        check(memcmp(result, quiet, sizeof result) == 0, "the event's result");
        check((memcmp(single.state, new.state, sizeof new.state) == 0) == (at == 4), "the event's state");
    }
}

/* Parts, pins and bits out of range: 1, before 2; a state of 31 or 33 bytes: 2. The state is left. */
static void makings(void)
{
    uint8_t left[33], state[33];

    memset(left, 0xa5, sizeof left);
    memset(state, 0xa5, sizeof state);
    check(sildrokk_make(256, 0, 0, state, 32) == 1, "part 256");
    check(sildrokk_make(0, 1, 0, state, 32) == 1, "pins of part 0");
    check(sildrokk_make(3, 0, 1, state, 33) == 1, "bits of part 3, and a state of 33");
    check(sildrokk_make(3, 7, 0, state, 33) == 2, "a state of 33");
    check(sildrokk_make(3, 7, 0, state, 31) == 2, "a state of 31");
    check(memcmp(state, left, sizeof state) == 0, "what a refused making leaves");
}

/* A sample of 32, an expected value of 3 and on part 3 a start address of 8,192: the number says which field is bad, and the offset
   is that of its first byte. Of a sample of 8 and that start address, both bad on part 3, it is the sample. */
static void fields(void)
{
    static const uint8_t sample[] = {0x01, 0x19, 0x04, 0x20};
    static const uint8_t expected[] = {0x01, 0x19, 0x05, 0x03};
    static const uint8_t start[] = {0x02, 0x03, 0x00, 0x20, 0x00};
    static const uint8_t sample_and_start[] = {0x02, 0x08, 0x00, 0x20, 0x00};

    check(gives(0, sample, sizeof sample, 6, 1, 3, sizeof sample), "a sample of 32");
    check(gives(0, expected, sizeof expected, 11, 1, 3, sizeof expected), "an expected value of 3");
    check(gives(3, start, sizeof start, 10, 0, 2, sizeof start), "a start address of 8192");
    check(gives(3, sample_and_start, sizeof sample_and_start, 6, 0, 1, sizeof sample_and_start), "a sample of 8, and 8192");
}

/* WP# that falls with CS# low before and then, and WP that rises after START: the offset of that sample, and byte 1 of its own result.
   WP# that falls with CS#, and WP that rises at rest: the length of the trace, since no sample has the flag. */
static void flags(void)
{
    static const uint8_t selected[] = {0x01, 0x19, 0x04, 0x18, 0x04, 0x10, 0x04, 0x11};
    static const uint8_t with_cs[] = {0x01, 0x19, 0x04, 0x10, 0x04, 0x11};
    static const uint8_t after_start[] = {0x02, 0x03, 0x00, 0x00, 0x00, 0x04, 0x01, 0x04, 0x05, 0x03};
    static const uint8_t at_rest[] = {0x02, 0x03, 0x00, 0x00, 0x00, 0x04, 0x07};
    struct model it = made(0);
    uint8_t result[SILDROKK_RESULT];
    size_t at;

    check(gives(0, selected, sizeof selected, 0, 4, sizeof selected, 4), "WP# moved in a selection");
    check(gives(0, with_cs, sizeof with_cs, 0, 3, sizeof with_cs, sizeof with_cs), "WP# moved with CS#");
    check(gives(3, after_start, sizeof after_start, 0, 4, sizeof after_start, 7), "WP moved after START");
    check(gives(3, at_rest, sizeof at_rest, 0, 2, sizeof at_rest, sizeof at_rest), "WP moved at rest");
    for (at = 0; at < sizeof selected; at += 2) {
        check(event(&it, selected + at, 2, result) == 0, "a sample");
        check(result[1] == (at == 4), "its flag");
    }
}

/* RDSR after power on shows 00h, once: byte 1 of two. Refused with a buffer that is a byte too long, with CS# low, and on part 3. */
static void selections(void)
{
    static const uint8_t shown[3] = {0xff, 0x00, 0xa5};
    static const uint8_t one_from_one[SILDROKK_RESULT] = {[7] = 1, [15] = 1};
    static const uint8_t zeros[SILDROKK_RESULT];
    static const uint8_t cs_low[] = {0x04, 0x18};
    struct model it = made(0), other_bus = made(3);
    uint8_t output[3] = {0xa5, 0xa5, 0xa5}, result[SILDROKK_RESULT];

    check(select_bytes(&it, rdsr, sizeof rdsr, output, sizeof rdsr, result) == 12, "a selection without power");
    check(event(&it, power_on, sizeof power_on, result) == 0, "power on");
    check(select_bytes(&it, rdsr, sizeof rdsr, output, sizeof rdsr, result) == 0, "RDSR");
    check(memcmp(output, shown, sizeof output) == 0, "what RDSR shows");
    check(memcmp(result, one_from_one, sizeof result) == 0, "its result");
    check(select_bytes(&it, rdsr, sizeof rdsr, output, sizeof output, result) == 13, "an output of 3");
    check(memcmp(output, shown, sizeof output) == 0, "what a refused selection leaves");
    check(memcmp(result, zeros, sizeof result) == 0, "its result");
    check(event(&it, cs_low, sizeof cs_low, result) == 0, "CS# low");
    check(select_bytes(&it, rdsr, sizeof rdsr, output, sizeof rdsr, result) == 12, "a selection in a selection");
    check(select_bytes(&other_bus, rdsr, sizeof rdsr, output, sizeof rdsr, result) == 4, "a selection on I2C");
}

/* Each call but making with a state and a result of these lengths, of which one at least is not 32: 2, and nothing is changed. A result
   of 32 bytes is written all the same. */
static void lengths(size_t state_length, size_t result_length)
{
    struct model it = made(0), before;
    uint8_t state[33] = {0}, state_before[33], output[1] = {0xa5}, result[33], left[33];

    memset(it.memory, 0x5a, sizeof it.memory);
    before = it;
    memcpy(state, it.state, sizeof it.state);
    memcpy(state_before, state, sizeof state);
    memset(result, 0xa5, sizeof result);
    memset(left, 0xa5, sizeof left);
    check(sildrokk_event(state, state_length, power_on, sizeof power_on, it.memory, it.size, result, result_length) == 2
          && result[0] == (result_length == 32 ? 2 : 0xa5), "an event with other lengths");
    check(sildrokk_run(state, state_length, power_on, sizeof power_on, 1, it.memory, 0, result, result_length) == 2
          && result[23] == (result_length == 32 ? 2 : 0xa5), "a run with other lengths");
    check(sildrokk_replay(state, state_length, power_on, 0, 0, it.memory, it.size, output, sizeof output, result, result_length) == 2
          && result[23] == (result_length == 32 ? 0 : 0xa5), "a replay with other lengths");
    check(sildrokk_select(state, state_length, 1, wren, sizeof wren, output, sizeof output, it.memory, it.size,
                          result, result_length) == 2
          && result[15] == (result_length == 32 ? 0 : 0xa5), "a selection with other lengths");
    check(result_length == 32 || memcmp(result, left, sizeof left) == 0, "a result of another length");
    check(memcmp(state, state_before, sizeof state) == 0 && output[0] == 0xa5, "what they leave");
    check(memcmp(it.memory, before.memory, sizeof it.memory) == 0, "the memory that they leave");
}

/* An image with one of its unused bytes set is none. */
static void unused_byte(void)
{
    struct model it = made(0), before;
    uint8_t result[SILDROKK_RESULT];
    size_t at;

    for (at = 20; at < SILDROKK_STATE; at++) {
        it.state[at] = 1;
        before = it;
        check(event(&it, power_on, sizeof power_on, result) == 2, "an unused byte");
        check(memcmp(it.state, before.state, sizeof it.state) == 0, "what it leaves");
        check(memcmp(it.memory, before.memory, sizeof it.memory) == 0, "the memory that it leaves");
        it.state[at] = 0;
    }
    check(event(&it, power_on, sizeof power_on, result) == 0, "the same without it");
}

/* Two models in turn, of two parts, and a copy of one in the midst of it: each goes its own way. */
static void side_by_side(void)
{
    static const uint8_t i2c_on[] = {0x02, 0x03, 0x00, 0x00, 0x00};
    static const uint8_t start[] = {0x04, 0x01};
    struct model spi = made(0), i2c = made(3), copy;
    uint8_t output[4], result[SILDROKK_RESULT];

    check(event(&spi, power_on, sizeof power_on, result) == 0, "power on of the first");
    check(event(&i2c, i2c_on, sizeof i2c_on, result) == 0, "power on of the second");
    check(select_bytes(&spi, wren, sizeof wren, output, sizeof wren, result) == 0, "an enable on the first");
    check(event(&i2c, start, sizeof start, result) == 0, "START on the second");
    copy = spi;
    check(select_bytes(&spi, write_11, sizeof write_11, output, sizeof write_11, result) == 0, "a write on the first");
    check(spi.memory[0] == 0x11 && copy.memory[0] == 0x00 && i2c.memory[0] == 0x00, "what is stored where");
    check(select_bytes(&spi, rdsr, sizeof rdsr, output, sizeof rdsr, result) == 0 && output[1] == 0x00, "the latch fell");
    check(select_bytes(&copy, rdsr, sizeof rdsr, output, sizeof rdsr, result) == 0 && output[1] == 0x02, "on the copy it stands");
}

int main(void)
{
    inputs();
    makings();
    fields();
    flags();
    selections();
    lengths(31, 32);
    lengths(33, 32);
    lengths(32, 31);
    lengths(32, 33);
    lengths(31, 33);
    unused_byte();
    side_by_side();
    if (!differs)
        puts("header: agrees");
    return differs;
}
