/*
 * A host in C that holds one chip: MR45V032A gets one enable and two writes, is read back, loses power, and the host tells what the
 * memory holds and why. From the folder above, once `rt lib` in crates/sildrokk has written the archive:
 *
 *   cc -std=c99 -I include -o host examples/host.c crates/sildrokk/out/libsildrokk.a && ./host
 */

#include "sildrokk.h"
#include <stdio.h>
#include <stdlib.h>
#include <string.h>

#define PART 0           /* MR45V032A */
#define MEMORY 4096      /* its bytes */
#define FILL 0xee        /* what each of them holds at first */
#define LATCH 0x02       /* the write enable latch, WEL, in the status register */

/* All that there is of the chip: state and memory, and what the last call gave. */
static uint8_t state[SILDROKK_STATE];
static uint8_t memory[MEMORY];
static uint8_t result[SILDROKK_RESULT];

/* Every call returns 0 or the number of its refusal, which the header explains. */
static void must(uint8_t number, const char *what)
{
    if (number != 0) {
        fprintf(stderr, "The model refused %s with number %d.\n", what, number);
        exit(EXIT_FAILURE);
    }
}

/* One event: a kind byte and its body. */
static void event(const uint8_t *bytes, size_t length, const char *what)
{
    must(sildrokk_event(state, sizeof state, bytes, length, memory, sizeof memory, result, sizeof result), what);
}

/* One selection: the bytes go in while the bytes that SO shows come out, as many; WP# is high. */
static void selection(const uint8_t *input, uint8_t *output, size_t length, const char *what)
{
    must(sildrokk_select(state, sizeof state, 1, input, length, output, length, memory, sizeof memory, result, sizeof result), what);
}

/* Whether the latch is set, by the status register. */
static int latch(void)
{
    static const uint8_t rdsr[2] = {0x05};
    uint8_t output[2];

    selection(rdsr, output, sizeof rdsr, "RDSR");
    return (output[1] & LATCH) != 0;
}

int main(void)
{
    static const uint8_t power_on[] = {0x01, 0x19}; /* CS#, WP# and HOLD# high */
    static const uint8_t power_off[] = {0x03};
    static const uint8_t wren[] = {0x06};
    static const uint8_t first[] = {0x02, 0x00, 0x00, 0x11};  /* WRITE 11h to 000h */
    static const uint8_t second[] = {0x02, 0x00, 0x01, 0x22}; /* WRITE 22h to 001h */
    static const uint8_t read[5] = {0x03, 0x00, 0x00};        /* READ two bytes from 000h */
    uint8_t output[5];
    int before_first, before_second;

    memset(memory, FILL, sizeof memory);
    must(sildrokk_make(PART, 0, 0, state, sizeof state), "the making");
    event(power_on, sizeof power_on, "the power on");
    selection(wren, output, sizeof wren, "WREN");
    before_first = latch();
    selection(first, output, sizeof first, "the first WRITE");
    before_second = latch();
    selection(second, output, sizeof second, "the second WRITE");
    selection(read, output, sizeof read, "READ");
    printf("READ shows   000h: %02Xh, 001h: %02Xh\n", output[3], output[4]);
    event(power_off, sizeof power_off, "the power off");
    printf("memory holds 000h: %02Xh, 001h: %02Xh\n", memory[0], memory[1]);
    if (!before_first || before_second || memory[0] != first[3] || memory[1] != FILL) {
        puts("The write enable latch or the memory is not what it should be.");
        return EXIT_FAILURE;
    }
    puts("The first WRITE was stored. The write enable latch fell when it ended, so the second was dropped and 001h kept its byte.");
    return EXIT_SUCCESS;
}
