/*
 * Sildrokk for C: a bench model of five FeRAM parts that plays the chip at its pins.
 *
 * Link crates/sildrokk/out/libsildrokk.a, which `rt lib` in crates/sildrokk proves and writes (x86-64, Linux).
 *
 * The host holds each model itself: a state of 32 bytes and a memory as long as the part's. Making
 * writes a state; every other call takes it, and leaves the next one in its place:
 *
 *   uint8_t state[32], memory[4096] = {0}, result[32];
 *   sildrokk_make(0, 0, 0, state, sizeof state);
 *   sildrokk_event(state, sizeof state, event, event_length, memory, sizeof memory, result, sizeof result);
 *
 *   part  chip        bus  bytes of memory  address pins      saved bits (SRWD BP1 BP0)
 *   0     MR45V032A   SPI  4,096            0                 0
 *   1     MR45V100A   SPI  131,072          0                 0 to 7
 *   2     MR45V200B   SPI  262,144          0                 0 to 7
 *   3     MR44V064B   I2C  8,192            0 to 7, A2 A1 A0  0
 *   4     MS85RC1MTY  I2C  131,072          0 to 3, A2 A1     0
 *
 * An address has two bytes on parts 0 and 3, three on parts 1 and 2, high byte first; on part 4 it has
 * two, and its highest bit, A16, stands in the device address word.
 *
 * An event is a kind byte and its body; a trace is a row of events with nothing between them:
 *
 *   01 sample                power on of an SPI part
 *   02 sample, 3 bytes       power on of an I2C part, and the start address, high byte first: where a
 *                            read that sends no address begins, on part 4 with the A16 of its word
 *   03                       power off
 *   04 sample                the wires' next sample
 *   05 answer                the answer that is expected now
 *
 *   A sample has the levels of the wires, 1 for high, from the lowest bit up: CS#, SCK, SI, WP#
 *   and HOLD# on SPI; SCL, SDA without the part's own pull, and WP on I2C. The other bits are 0.
 *   Answers: 0 low, 1 high, 2 nothing driven.
 *
 *   What happens is the difference of a sample from the one before; that of the power on is the first.
 *   A rise of SCK or SCL takes SI or SDA as it is in the sample of the rise. An edge of SCK counts only
 *   if CS# is 0 and HOLD# is 1 in both samples. SDA that moves together with SCL is no START or STOP.
 *
 *   A 04 sets the warning flag if it moves WP# or WP where that is to be held still: if the level is
 *   not that of the sample before, which may be a power on's, and CS# is 0 in both (SPI), or a START
 *   came before it and no STOP or power off since (I2C), whether the part listens or not. No other
 *   kind of event sets the flag, and no refused one.
 *
 * Each function returns 0, or the first of these numbers that holds, in this order:
 *
 *   1   no such part, or pins or saved bits that it cannot have; only at making
 *   2   a state or result that is not 32 bytes long; except at making, also a state that is not the
 *       image of a state in its ranges (docs/IMAGE.md)
 *   3   memory_length is more or less than the part has
 *   4   no such kind, or the power on of the other bus; of a selection, that the part is on I2C
 *   5   the event's bytes are not all there, or a single event has none
 *   6   a sample too large: 32 or more on SPI, 8 or more on I2C
 *   10  a start address not below the part's size
 *   11  an expected answer above 2
 *   7   a 03, 04 or 05 without power
 *   8   a power on, under power
 *   9   the part answers something else than expected
 *   12  a selection without power, or where CS# was not 1 in the last sample
 *   13  output_length is more or less than input_length
 *
 * A call that is refused changes neither state nor memory, answers nor output, making included. In a
 * run the events before the refused one stand, in state and memory, and so do their answers and their
 * flag. A result of 32 bytes is written by every call that takes one, refused or not, and all of it:
 * what is not said below is 0. A result of another length is left as it is.
 *
 * The state is a byte image that a person can read in a dump: docs/IMAGE.md has its fields. It holds
 * no pointer, so a copy of state and memory is a model of its own, and both may be kept in a file.
 *
 * The host's duties, which nothing here can test:
 *
 *   - each pointer is valid for its length; where the length is 0 any pointer but null does;
 *   - no two of the buffers lent to one call overlap, input and output included;
 *   - from the making on nobody else writes the state or the memory between calls, if what memory and
 *     saved bits hold is to be what the events wrote.
 *
 * The memory may hold any bytes at first. A result, answers, output and the state of a making need not
 * be written before the call. No buffer needs an alignment. The functions keep nothing between calls
 * and allocate nothing, so calls may run at once in as many threads as there are, if they share no
 * buffer but an event, trace or input, which are only read.
 */

#ifndef SILDROKK_H
#define SILDROKK_H

#include <stddef.h>
#include <stdint.h>

#ifdef __cplusplus
extern "C" {
#endif

/* How long a state and a result are. */
#define SILDROKK_STATE 32
#define SILDROKK_RESULT 32

/*
 * Writes the state of a part just made, without power. 1, then 2, refuse it; the state is then left as
 * it is.
 */
uint8_t sildrokk_make(uint32_t part, uint32_t pins, uint32_t bits,
                      uint8_t *state, size_t state_length);

/*
 * The event at the front of `event`; bytes after it are not looked at. Result: its answer (byte 0)
 * and its flag, 0 or 1 (byte 1). On a refusal these are 2 and 0.
 */
uint8_t sildrokk_event(uint8_t *state, size_t state_length,
                       const uint8_t *event, size_t event_length,
                       uint8_t *memory, size_t memory_length,
                       uint8_t *result, size_t result_length);

/*
 * At most `quota` events from the front of a trace, up to its end or to one that is refused; with
 * UINT64_MAX there is no limit.
 *
 * Result: three numbers of eight bytes, high byte first: the count, which is how many events were
 * accepted (bytes 0 to 7), the offset (8 to 15), and the flag offset (16 to 23). With 2 and 3 no event
 * is looked at, and these are 0, 0 and trace_length.
 *
 * With 6, 10 and 11 the offset is that of the first byte of the bad field: with 6 the sample and
 * with 11 the expected answer, one after the kind byte; with 10 the first of the three bytes of the
 * start address, two after it. Else it is how many bytes the accepted events take, so that of the
 * next kind byte, or trace_length.
 *
 * The flag offset is that of the kind byte of the first accepted event with the flag, or
 * trace_length if none has it.
 */
uint8_t sildrokk_run(uint8_t *state, size_t state_length,
                     const uint8_t *trace, size_t trace_length, uint64_t quota,
                     uint8_t *memory, size_t memory_length,
                     uint8_t *result, size_t result_length);

/*
 * The same run. It also writes the answer (0, 1 or 2) of the accepted event number i, counted from
 * 0, to answers[i] while there is room; the rest of answers is left as it is.
 */
uint8_t sildrokk_replay(uint8_t *state, size_t state_length,
                        const uint8_t *trace, size_t trace_length, uint64_t quota,
                        uint8_t *memory, size_t memory_length,
                        uint8_t *answers, size_t answers_length,
                        uint8_t *result, size_t result_length);

/*
 * One selection of an SPI part as bytes: CS# falls, the bytes of `input` go in at SI, high bit first,
 * and CS# rises. WP# is low throughout if `wp` is 0, and high if it is any other number; HOLD# is
 * high. No bytes at all is a selection too. What the same selection does as samples, this does.
 *
 * output[i] gets what SO showed while input[i] went in: each bit as it was just before the rise of
 * SCK that took the bit in the same place, and 1 where the part drove nothing.
 *
 * Result: two numbers as above: the index of the first driven byte (bytes 0 to 7) and how many are
 * driven (8 to 15), or input_length and 0 if none is. On a refusal both are 0. There is no flag
 * offset, since WP# is still from the fall of CS# to its rise.
 */
uint8_t sildrokk_select(uint8_t *state, size_t state_length, uint32_t wp,
                        const uint8_t *input, size_t input_length,
                        uint8_t *output, size_t output_length,
                        uint8_t *memory, size_t memory_length,
                        uint8_t *result, size_t result_length);

#ifdef __cplusplus
}
#endif

#endif
