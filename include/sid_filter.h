/* The filter of the MOS 6581: bytes in, bytes out. Numbers in the bytes are little-endian, and an f32 is its IEEE 754 bits. In the
 * repository docs/FORMATS.md has every buffer byte by byte, docs/ENGINE.md what an engine asks.
 *
 * A buffer is a pointer and its length in bytes; it needs no alignment. Building writes `curves`; widening writes `wide`; a run writes
 * `state` and `output`; collecting writes `sums`. All else is only read. A written buffer must not overlap another one, and while a call runs
 * nothing else may write what is lent to it. Every call answers by value. None keeps a pointer, allocates, locks or has static data. The
 * thread's float mode must be the usual one: round to nearest even, no flush to zero. */
#ifndef SID_FILTER_H
#define SID_FILTER_H

#include <stddef.h>
#include <stdint.h>

#ifdef __cplusplus
extern "C" {
#endif

/* The version of this library; CHANGELOG.md says what each one changed. */
#define SID_FILTER_VERSION "0.7.2"

/* Units.
 *
 * Time: one sample is one clock of the chip, 985,248 Hz. 65,536 events, the most that a script has, are 66 ms of sound.
 *
 * A level is a voltage of the chip, 0 to 1: level = (volts - 0.8228) / 9.5895, and no level is below 0 or above 1. A voice is at
 *
 *     SID_FILTER_VOICE_REST + (SID_FILTER_VOICE_SWING * wave + SID_FILTER_VOICE_RISE) * envelope
 *
 * with its wave within -1 to 1 and its envelope within 0 to 1: it rests at 0.451, swings by 0.150 to either side and rises by 0.021 at
 * full envelope. (The emulator's table of the waveform DAC goes from -0.222 to 0.770.) The external input rests at the same level and has no
 * envelope, so it does not rise.
 *
 * input_sum is the sum of the levels of what is routed into the filter, by bits 0 to 3 of register 23: a voice that is silent still adds
 * its rest. source_energy is the sum of (level - rest) squared over the same inputs. With nothing routed both are 0. sid_filter_collect
 * works both out from the voices, to the emulator's last bit; the formula above rounds otherwise.
 *
 * high, band and low are the filter's outputs. selected adds those that the mode selects, band with its sign turned, times the mode's
 * gain, each about SID_FILTER_MODE_REST. With nothing routed the three rest at 0, and selected at 0.3764 a selected mode bit: 0 in mode 0.
 * An input rests above the filter's own level, so silent inputs move the rest: with 1, 2, 3, 4 of them low rests at -0.046, -0.083,
 * -0.112, -0.136, and selected moves with it.
 *
 * The volume and voice 3 off (register 24, bits 0 to 3 and 7) change no sample: they act behind the filter, in the mixer and the volume
 * DAC, which sid_filter_mixer and sid_filter_volume ask by themselves.
 *
 * A charge is in the units of the emulator's output: a step of the volume from 15 to 0 charges the output node by 3152.0623 and 2777.7222,
 * one from 0 to 15 by as much below 0. The charges stand in the state, and no sample reads them. */
#define SID_FILTER_CLOCK_HZ 985248
#define SID_FILTER_VOICE_REST 0.45085025f
#define SID_FILTER_VOICE_SWING 0.15015182f
#define SID_FILTER_VOICE_RISE 0.021486761f
#define SID_FILTER_MODE_REST 0.376411f

/* number: 0 on success, else the cause of the refusal.
 * events, samples: what a run had done; 0 for the other calls.
 * buffer, place: 0 where the refusal names none. */
typedef struct {
    uint32_t number;
    uint32_t events;
    uint32_t samples;
    uint32_t buffer;
    uint32_t place;
} sid_filter_answer;

enum {
    SID_FILTER_DONE = 0,
    /* The bundle is not 6,127,736 bytes long. */
    SID_FILTER_BUNDLE_LENGTH = 1,
    /* The bundle's header is not the fixed one; place: the byte of the first difference. */
    SID_FILTER_HEADER = 2,
    /* An entry that is read, or on opening any, is not finite or above 1,024 in magnitude; buffer: 0 the bundle, 1 the curves; place: the
     * byte at which the first such entry begins. */
    SID_FILTER_ENTRY = 3,
    /* The curve buffer is not 254,076 bytes long. */
    SID_FILTER_CURVES_LENGTH = 4,
    /* An input sum or a source energy is not finite. */
    SID_FILTER_INPUT_NOT_FINITE = 5,
    /* A number of the state, an output, a control or a result would not be finite. */
    SID_FILTER_DOMAIN = 6,
    /* The script's length, offset or count, an event's kind or its zero bytes are wrong. */
    SID_FILTER_SCRIPT = 7,
    /* The output is shorter than 16 bytes for each sample event. */
    SID_FILTER_OUTPUT_LENGTH = 8,
    /* 9 is unused, and stays so. */
    /* The state block is invalid, an index is past its table, or a direct argument is not finite. */
    SID_FILTER_ARGUMENT = 10,
    /* The voices or the numbers beside them have a wrong length, a number of them is not finite, a flag is above 1, a voice's last byte is
     * not zero, or a selection is above 15. */
    SID_FILTER_SOURCES = 11,
    /* The decays are not six numbers from 0 to 1. */
    SID_FILTER_DECAYS = 12
};

/* The lengths in bytes of a bundle, of a curve buffer, of a state block, of a state block without charges, of the decays, and of a script's
 * header, event and sample; the most events; the lengths of a voice, of the numbers beside three voices and of their sums. */
#define SID_FILTER_BUNDLE_BYTES 6127736
#define SID_FILTER_CURVES_BYTES 254076
#define SID_FILTER_STATE_BYTES 68
#define SID_FILTER_NARROW_STATE_BYTES 24
#define SID_FILTER_DECAYS_BYTES 24
#define SID_FILTER_SCRIPT_HEADER_BYTES 8
#define SID_FILTER_EVENT_BYTES 12
#define SID_FILTER_SAMPLE_BYTES 16
#define SID_FILTER_EVENTS_MAX 65536
#define SID_FILTER_VOICE_BYTES 12
#define SID_FILTER_NUMBERS_BYTES 24
#define SID_FILTER_SUMS_BYTES 32

/* A state block, all that a filter remembers. 68 zero bytes are the starting value.
 *
 *    0  u16 cutoff, i16 displacement, u16 write base; a byte each: pending, resonance, routing, mode, volume, zero
 *   12  three f32: band, low, source energy
 *   24  five f32, the charges: volume fast and slow, bypass attack, pulse gate fast and slow
 *   44  two f32: the conductance code of the volume; the activity beside the filter in the clock before
 *   52  three f32, the blends of voices 1 to 3: how far each one's saw is bent at the mixer
 *   64  a byte, pulse pending: the gate of a pulse has risen; three zero bytes
 *
 * It is valid where it is 68 bytes long, cutoff and write base are 0 to 2,047, the displacement -57 to 57, pending and pulse pending 0 or 1,
 * the nibbles 0 to 15, the four zero bytes zero, and all floats finite.
 *
 * A sample changes the floats at 12; a write its registers, and a mode write the volume's two charges and the conductance code too; a reset
 * gives the starting value. Nothing else changes in a run. A caller writes two places: 1 at 64 when the gate of a pulse rises, and 0.0 to the
 * blend of a voice when the gate of its saw rises. */

/* The decays: six f32 from 0 to 1. The first five say what a clock leaves of each charge, in the charges' order; the sixth is the part of its
 * way that a blend goes in a clock. A run judges them, and no event reads them. These are the emulator's, as bytes. */
#define SID_FILTER_EMULATOR_DECAYS \
    { 0xc1, 0xdb, 0x7f, 0x3f, 0x31, 0xff, 0x7f, 0x3f, 0x18, 0xf9, 0x7f, 0x3f, \
      0x93, 0xfb, 0x7f, 0x3f, 0x59, 0xff, 0x7f, 0x3f, 0x00, 0x80, 0xaa, 0x37 }

/* The kinds of an event. An event has a kind (byte 0), a value (byte 1), two zero bytes, an input sum (f32, byte 4) and a source energy
 * (f32, byte 8). Kinds 0 to 3 use the value, which is what is written to the register; a sample uses the two floats; what a kind does not
 * use is ignored. */
enum {
    SID_FILTER_CUTOFF_LOW = 0,  /* register 21: bits 0 to 2 are the cutoff's bits 0 to 2 */
    SID_FILTER_CUTOFF_HIGH = 1, /* register 22: the cutoff's bits 3 to 10 */
    SID_FILTER_ROUTING = 2,     /* register 23: bits 0 to 2 route voices 1 to 3, bit 3 the external input; bits 4 to 7 the resonance */
    SID_FILTER_MODE = 3,        /* register 24: bits 4, 5, 6 select low, band, high, bit 7 is voice 3 off; bits 0 to 3 the volume */
    SID_FILTER_SAMPLE = 4,      /* one clock of the chip */
    SID_FILTER_RESET = 5        /* the state becomes the starting value */
};

/* Opens a bundle: its length (1), its header (2), then every entry in order (3). */
sid_filter_answer sid_filter_open(const uint8_t *bundle, size_t bundle_len);

/* Builds the 31 curves of a bundle: the bundle's length (1) and header (2), the buffer's length (4), then every entry of the analogue surface
 * in order (3). Where nothing is refused all 254,076 bytes are written, else none. */
sid_filter_answer sid_filter_build_curves(const uint8_t *bundle, size_t bundle_len, uint8_t *curves, size_t curves_len);

/* Turns a block of 24 bytes, the first 24 of the 68, into a whole one: zeros behind them, but for the conductance code of its volume. Blocks
 * that versions before 0.7.0 kept are such. Refused with 10, `wide` then as it was: a wrong length of either, or an invalid field. */
sid_filter_answer sid_filter_widen_state(const uint8_t *block, size_t block_len, uint8_t *wide, size_t wide_len);

/* Runs a script from the state in `state`, and writes for each sample event, one after another from the start of `output`, high, band, low
 * and selected (f32 each). A script is a count of events and the offset 8 (u32 each), then the events.
 *
 * Refused, in this order:
 *   1  the bundle's length
 *   2  its header; place: the byte of the first difference
 *   4  the curve buffer's length
 *  10  the state block is invalid
 *  12  the decays: not 24 bytes, or one of the six is not from 0 to 1 (-0.0 is, a NaN is not)
 *   7  the script: a length other than 8 + 12 x count, a count above 65,536, another offset, a kind above 5 or a byte that must be zero
 *   8  the output is shorter than 16 bytes a sample event
 *   3  an entry that the controls read at the start is unusable: buffer and place
 *   6  a control is not finite
 * and then event by event
 *   5  a sample's input sum or source energy is not finite
 *   3  an entry that the event reads is unusable: buffer and place
 *   6  a control, a number of the state (a mode write's charge is one) or an output would not be finite
 *
 * Up to the start nothing is written and events and samples are 0. A run that stops at an event has written the samples before it and
 * leaves the state before it; events and samples count what was done, and the rest of `output` stays. A script may be cut: each piece goes
 * on from the state that the last one left, with the same decays. */
sid_filter_answer sid_filter_run(const uint8_t *bundle, size_t bundle_len, const uint8_t *curves, size_t curves_len,
    uint8_t *state, size_t state_len, const uint8_t *decays, size_t decays_len, const uint8_t *script, size_t script_len,
    uint8_t *output, size_t output_len);

/* Collects what three voices and the external input give the filter and the mixer in one clock, by a routing and a mode nibble: bits 0 to 2
 * of the routing send voices 1 to 3 into the filter, bit 3 the external input; what is not sent goes beside it, but for voice 3 where bit 3
 * of the mode turns it off.
 *
 *   voices    three of 12 bytes: the levels of the waveform and of the envelope DAC (f32 each); a byte each: the selected waveforms, 0 to 15
 *             (1 triangle, 2 saw, 4 pulse, 8 noise, and their sums), combined and frozen (0 or 1), zero
 *   numbers   six f32: the external input's sample, its level at the filter, its level at the mixer; how far each voice's saw is bent at
 *             the mixer, 0 to 1
 *   sums      eight f32. Into the filter: input_sum, source_energy, the envelopes. Beside it: the levels, the envelopes; and of the voices
 *             there that are neither combined nor frozen the envelopes, the attack drives, the envelopes of the pulses (selection 4)
 *
 * A voice at envelope 0 adds its rest where it goes, and nothing else.
 *
 * Refused, in this order, the sums then as they were:
 *  10  a nibble above 15; sums not 32 bytes
 *  11  voices not 36 bytes, numbers not 24; a number not finite, a selection above 15, a flag above 1, a last byte not zero: of every voice
 *      and every number, also of one that this routing does not read
 *   6  one of the eight sums would not be finite */
sid_filter_answer sid_filter_collect(uint8_t routing, uint8_t mode, const uint8_t *voices, size_t voices_len,
    const uint8_t *numbers, size_t numbers_len, uint8_t *sums, size_t sums_len);

/* Where on a curve an amplifier stands. Its input, 0 to 1, lies between two of the curve's entries:
 *
 *   index     the lower of the two, 0 to 2,047; the other is the next one
 *   fraction  how far it lies from that entry towards the next, 0 or more and below 1; an input of -0.0 has -0.0
 *   value     what the amplifier gives: entry + (next entry - entry) x fraction, and the summer less its output at rest
 *
 * An input of 1 or above has index 2,047 and fraction 0, one below 0 has index 0 and fraction 0. The five calls below read what is lent and
 * write nothing. A refused one has zeros beside its answer. */
typedef struct {
    sid_filter_answer answer;
    float value;
    uint32_t index;
    float fraction;
} sid_filter_point;

/* A curve at an input. The curves are numbered: 0 to 6 the summer's, by its inputs, 7 to 14 the mixer's, by its inputs from 0 on, 15 to 30
 * the volume DAC's, by the volume from 0 on. Refused: the curve buffer's length (4), a number above 30 or an input that is not finite (10),
 * an unusable entry (3, buffer 1, place), a value that is not finite (6). */
sid_filter_point sid_filter_sample_curve(const uint8_t *curves, size_t curves_len, uint32_t curve, float input);

/* The summer of a routing nibble, for the sum of the levels that are routed into the filter. With none routed and a sum of 0 its value is
 * 0, on every bundle that opens, with the curves built from it. Refused: the bundle's length (1) and header (2, place), the curve
 * buffer's length (4), a routing above 15 (10), a sum that is not finite (5), an unusable entry (3, buffer, place), a value that is not
 * finite (6). */
sid_filter_point sid_filter_summer(const uint8_t *bundle, size_t bundle_len, const uint8_t *curves, size_t curves_len, uint8_t routing,
    float sum);

/* The mixer of a routing and a mode nibble, for the sum of its inputs: the levels beside the filter, and selected. One without an input
 * stands at rest, whatever the sum. Refused: the curve buffer's length (4), a nibble above 15 or a sum that is not finite (10), an unusable
 * entry (3, buffer 1, place), a value that is not finite (6). */
sid_filter_point sid_filter_mixer(const uint8_t *curves, size_t curves_len, uint8_t routing, uint8_t mode, float sum);

/* The volume DAC at a volume of 0 to 15, for the mixer's output. Refused as the mixer is, a volume above 15 with 10. */
sid_filter_point sid_filter_volume(const uint8_t *curves, size_t curves_len, uint8_t volume, float value);

/* Where the summer stands for a sample of the state in `state`, which stays as it is: value is what the filter is fed, and all three are 0
 * where the sample is idle and so reads no curve. To show where the last sample stood, ask with the state before it. Refused as that sample
 * is: 1, 2 and 4 of what is lent, 10 of the state block, then 5, then 3 and 6 of the controls, then 3 and 6 of the sample. */
sid_filter_point sid_filter_sample_point(const uint8_t *bundle, size_t bundle_len, const uint8_t *curves, size_t curves_len,
    const uint8_t *state, size_t state_len, float sum, float energy);

#ifdef __cplusplus
}
#endif

#endif
