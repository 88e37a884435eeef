/* Opens a bundle, builds its curves and runs a small script: uncut, cut into two pieces, with a sample that is refused, and with too short
 * an output; shows what its volume charged, and widens a state without charges; asks where on its curve the last sample stood, and collects
 * its two numbers from the voices themselves.
 *
 * usage: run BUNDLE */
#include "sid_filter.h"

#include <math.h>
#include <stdio.h>
#include <string.h>

enum { EVENTS = 12, SAMPLES = 6, EVENT = SID_FILTER_EVENT_BYTES, SAMPLE = SID_FILTER_SAMPLE_BYTES };

static uint8_t bundle[SID_FILTER_BUNDLE_BYTES], curves[SID_FILTER_CURVES_BYTES];
static const uint8_t decays[SID_FILTER_DECAYS_BYTES] = SID_FILTER_EMULATOR_DECAYS;

static void put_u32(uint8_t *bytes, uint32_t word)
{
    for (int i = 0; i < 4; i++)
        bytes[i] = (uint8_t)(word >> 8 * i);
}

static void put_f32(uint8_t *bytes, float x)
{
    uint32_t bits;
    memcpy(&bits, &x, sizeof bits);
    put_u32(bytes, bits);
}

static float get_f32(const uint8_t *bytes)
{
    uint32_t bits = bytes[0] | (uint32_t)bytes[1] << 8 | (uint32_t)bytes[2] << 16 | (uint32_t)bytes[3] << 24;
    float x;
    memcpy(&x, &bits, sizeof x);
    return x;
}

/* The level of a voice, by the units of the header. The waves below are those of a waveform DAC, -0.222 to 0.770. */
static float voice(float wave, float envelope)
{
    return SID_FILTER_VOICE_REST + (SID_FILTER_VOICE_SWING * wave + SID_FILTER_VOICE_RISE) * envelope;
}

/* How far a level lies from rest, squared. */
static float energy(float level)
{
    return (level - SID_FILTER_VOICE_REST) * (level - SID_FILTER_VOICE_REST);
}

/* Puts a register write. Answers the place of the next event, as put_sample does. */
static uint8_t *put_write(uint8_t *event, uint8_t kind, uint8_t value)
{
    memset(event, 0, EVENT);
    event[0] = kind;
    event[1] = value;
    return event + EVENT;
}

/* Puts a sample of the levels of two voices, the two that are routed. */
static uint8_t *put_sample(uint8_t *event, float first, float second)
{
    uint8_t *next = put_write(event, SID_FILTER_SAMPLE, 0);
    put_f32(event + 4, first + second);
    put_f32(event + 8, energy(first) + energy(second));
    return next;
}

/* Voices 1 and 2 in a low-pass filter: two samples with the cutoff low, two with it high, and two in band-pass. */
static void put_events(uint8_t *event)
{
    event = put_write(event, SID_FILTER_ROUTING, 0x83);
    event = put_write(event, SID_FILTER_MODE, 0x1f);
    event = put_write(event, SID_FILTER_CUTOFF_LOW, 7);
    event = put_write(event, SID_FILTER_CUTOFF_HIGH, 32);
    event = put_sample(event, voice(-0.2f, 1.0f), voice(0.5f, 0.25f));
    event = put_sample(event, voice(0.75f, 1.0f), voice(0.5f, 0.25f));
    event = put_write(event, SID_FILTER_CUTOFF_HIGH, 200);
    event = put_sample(event, voice(-0.2f, 1.0f), voice(-0.1f, 0.5f));
    event = put_sample(event, voice(0.75f, 1.0f), voice(-0.1f, 0.5f));
    event = put_write(event, SID_FILTER_MODE, 0x2f);
    event = put_sample(event, voice(-0.2f, 1.0f), voice(0.5f, 0.0f));
    put_sample(event, voice(0.75f, 1.0f), voice(0.5f, 0.0f));
}

/* Prints an answer, and whether its number is the one that is expected. */
static int print_answer(const char *call, sid_filter_answer answer, uint32_t number)
{
    printf("%s: number %lu, events %lu, samples %lu, buffer %lu, place %lu\n", call, (unsigned long)answer.number,
        (unsigned long)answer.events, (unsigned long)answer.samples, (unsigned long)answer.buffer, (unsigned long)answer.place);
    return answer.number == number;
}

/* Runs a script of some events, with room for some samples. */
static sid_filter_answer run(uint8_t *state, const uint8_t *events, uint32_t count, uint8_t *output, size_t samples)
{
    uint8_t script[SID_FILTER_SCRIPT_HEADER_BYTES + EVENTS * EVENT];
    put_u32(script, count);
    put_u32(script + 4, SID_FILTER_SCRIPT_HEADER_BYTES);
    memcpy(script + SID_FILTER_SCRIPT_HEADER_BYTES, events, (size_t)count * EVENT);
    return sid_filter_run(bundle, sizeof bundle, curves, sizeof curves, state, SID_FILTER_STATE_BYTES, decays, sizeof decays, script,
        SID_FILTER_SCRIPT_HEADER_BYTES + (size_t)count * EVENT, output, samples * SAMPLE);
}

/* Prints what the steps of the volume charged, and the conductance code from which the next one goes. */
static void print_charges(const uint8_t *state)
{
    printf("  volume: fast charge %.4f, slow charge %.4f, conductance code %.7f\n", get_f32(state + 24), get_f32(state + 28),
        get_f32(state + 44));
}

int main(int argc, char **argv)
{
    FILE *file = argc == 2 ? fopen(argv[1], "rb") : NULL;
    if (file == NULL) {
        fprintf(stderr, "usage: run BUNDLE, a file that can be read\n");
        return 1;
    }
    size_t length = fread(bundle, 1, sizeof bundle, file);
    fclose(file);
    printf("sid_filter %s\n", SID_FILTER_VERSION);
    if (!print_answer("open", sid_filter_open(bundle, length), SID_FILTER_DONE))
        return 1;
    int good = print_answer("build", sid_filter_build_curves(bundle, sizeof bundle, curves, sizeof curves), SID_FILTER_DONE);

    uint8_t events[EVENTS * EVENT], state[SID_FILTER_STATE_BYTES] = { 0 }, output[SAMPLES * SAMPLE];
    put_events(events);
    good &= print_answer("run", run(state, events, EVENTS, output, SAMPLES), SID_FILTER_DONE);
    for (const uint8_t *sample = output; sample < output + sizeof output; sample += SAMPLE)
        printf("  high % .7f  band % .7f  low % .7f  selected % .7f\n", get_f32(sample), get_f32(sample + 4), get_f32(sample + 8),
            get_f32(sample + 12));
    print_charges(state);

    /* The same in two pieces, cut after the low write: the second goes on from the state that the first left. */
    uint8_t other_state[SID_FILTER_STATE_BYTES] = { 0 }, other_output[SAMPLES * SAMPLE];
    good &= print_answer("first piece", run(other_state, events, 3, other_output, SAMPLES), SID_FILTER_DONE);
    good &= print_answer("second piece", run(other_state, events + 3 * EVENT, EVENTS - 3, other_output, SAMPLES), SID_FILTER_DONE);
    int same = memcmp(state, other_state, sizeof state) == 0 && memcmp(output, other_output, sizeof output) == 0;
    printf("  %s\n", same ? "the same samples and state" : "DIFFERS");

    /* A state without charges, as versions before 0.7.0 kept it: its 24 bytes become 68, and a run takes these alone. */
    uint8_t wide[SID_FILTER_STATE_BYTES];
    good &= print_answer("widen", sid_filter_widen_state(state, SID_FILTER_NARROW_STATE_BYTES, wide, sizeof wide), SID_FILTER_DONE);
    print_charges(wide);
    good &= print_answer("widen 68 bytes", sid_filter_widen_state(state, sizeof state, wide, sizeof wide), SID_FILTER_ARGUMENT);

    /* Where on its curve the summer stood in the last sample: asked with the state before it, which stays as it is. */
    const uint8_t *last = events + (EVENTS - 1) * EVENT;
    memset(other_state, 0, sizeof other_state);
    good &= print_answer("before the last", run(other_state, events, EVENTS - 1, other_output, SAMPLES), SID_FILTER_DONE);
    sid_filter_point point = sid_filter_sample_point(bundle, sizeof bundle, curves, sizeof curves, other_state, sizeof other_state,
        get_f32(last + 4), get_f32(last + 8));
    good &= print_answer("point", point.answer, SID_FILTER_DONE);
    printf("  index %lu  fraction %.7f  value % .7f\n", (unsigned long)point.index, point.fraction, point.value);

    /* The two numbers of that sample from its voices, as the emulator rounds them: voices 1 and 2 through the filter, a pulse and a silent
     * one; voice 3 and the external input at rest beside it. A selection of 16 is no voice's. */
    uint8_t voices[3 * SID_FILTER_VOICE_BYTES] = { 0 }, numbers[SID_FILTER_NUMBERS_BYTES] = { 0 }, sums[SID_FILTER_SUMS_BYTES];
    put_f32(voices, 0.75f);
    put_f32(voices + 4, 1.0f);
    voices[8] = 4;
    put_f32(voices + SID_FILTER_VOICE_BYTES, 0.5f);
    put_f32(numbers + 4, SID_FILTER_VOICE_REST);
    put_f32(numbers + 8, SID_FILTER_VOICE_REST);
    good &= print_answer("collect", sid_filter_collect(3, 2, voices, sizeof voices, numbers, sizeof numbers, sums, sizeof sums), SID_FILTER_DONE);
    printf("  input sum %.7f  source energy %.7f  beside the filter %.7f\n", get_f32(sums), get_f32(sums + 4), get_f32(sums + 12));
    voices[8] = 16;
    good &= print_answer("selection 16", sid_filter_collect(3, 2, voices, sizeof voices, numbers, sizeof numbers, sums, sizeof sums),
        SID_FILTER_SOURCES);

    /* An infinite sum in the fourth sample: the run stops there, with three samples written. */
    memset(other_state, 0, sizeof other_state);
    put_f32(events + 8 * EVENT + 4, INFINITY);
    good &= print_answer("an infinite sum", run(other_state, events, EVENTS, other_output, SAMPLES), SID_FILTER_INPUT_NOT_FINITE);

    /* Room for five samples only: nothing is run. */
    good &= print_answer("a short output", run(other_state, events, EVENTS, other_output, SAMPLES - 1), SID_FILTER_OUTPUT_LENGTH);
    return good && same ? 0 : 1;
}
