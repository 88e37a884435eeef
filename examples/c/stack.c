/* Prints how many bytes of stack each call takes: from the frame of the function that calls it, which is counted too, to the deepest byte
 * that is written. Each call runs on a stack of its own that was filled with a pattern. x86-64 Linux only, as the library is.
 *
 * usage: stack <BUNDLE */
#define _GNU_SOURCE
#include "sid_filter.h"

#include <stdio.h>
#include <string.h>
#include <ucontext.h>

/* Events for each pair of a routing and a mode, and how many of them are samples. */
enum { EACH = 7, EACH_SAMPLES = 2, PAIRS = 256, EVENTS = EACH * PAIRS };

struct event {
    uint8_t kind, value, zero[2];
    float input_sum, source_energy;
};

static struct {
    uint32_t count, offset;
    struct event events[EVENTS];
} script = { EVENTS, SID_FILTER_SCRIPT_HEADER_BYTES, { { 0, 0, { 0 }, 0, 0 } } };

static uint8_t bundle[SID_FILTER_BUNDLE_BYTES], curves[SID_FILTER_CURVES_BYTES], state[SID_FILTER_STATE_BYTES];
static uint8_t wide[SID_FILTER_STATE_BYTES], output[PAIRS * EACH_SAMPLES * SID_FILTER_SAMPLE_BYTES];
static const uint8_t decays[SID_FILTER_DECAYS_BYTES] = SID_FILTER_EMULATOR_DECAYS;
static uint8_t stack[1 << 20];
static ucontext_t here, there;

/* What the last call answered, and the frame that it was called from. */
static sid_filter_answer answer;
static uint8_t *frame;

static void open_bundle(void)
{
    frame = __builtin_frame_address(0);
    answer = sid_filter_open(bundle, sizeof bundle);
}

static void build_curves(void)
{
    frame = __builtin_frame_address(0);
    answer = sid_filter_build_curves(bundle, sizeof bundle, curves, sizeof curves);
}

static void widen_state(void)
{
    frame = __builtin_frame_address(0);
    answer = sid_filter_widen_state(state, SID_FILTER_NARROW_STATE_BYTES, wide, sizeof wide);
}

static void run_script(void)
{
    frame = __builtin_frame_address(0);
    answer = sid_filter_run(bundle, sizeof bundle, curves, sizeof curves, state, sizeof state, decays, sizeof decays, (const uint8_t *)&script,
        sizeof script, output, sizeof output);
}

/* Saws at half their level: voice 1 through the filter, voice 3 beside it; voice 2 silent. */
static void collect(void)
{
    static uint8_t voices[3 * SID_FILTER_VOICE_BYTES] = { [3] = 0x3f, [7] = 0x3f, [8] = 2, [27] = 0x3f, [31] = 0x3f, [32] = 2 };
    static uint8_t numbers[SID_FILTER_NUMBERS_BYTES], sums[SID_FILTER_SUMS_BYTES];
    frame = __builtin_frame_address(0);
    answer = sid_filter_collect(1, 1, voices, sizeof voices, numbers, sizeof numbers, sums, sizeof sums);
}

static void sample_curve(void)
{
    frame = __builtin_frame_address(0);
    answer = sid_filter_sample_curve(curves, sizeof curves, 0, SID_FILTER_VOICE_REST).answer;
}

static void summer(void)
{
    frame = __builtin_frame_address(0);
    answer = sid_filter_summer(bundle, sizeof bundle, curves, sizeof curves, 1, SID_FILTER_VOICE_REST).answer;
}

static void mixer(void)
{
    frame = __builtin_frame_address(0);
    answer = sid_filter_mixer(curves, sizeof curves, 1, 1, SID_FILTER_VOICE_REST).answer;
}

static void volume(void)
{
    frame = __builtin_frame_address(0);
    answer = sid_filter_volume(curves, sizeof curves, 15, SID_FILTER_VOICE_REST).answer;
}

static void sample_point(void)
{
    frame = __builtin_frame_address(0);
    state[8] = 1; /* voice 1 is routed */
    answer = sid_filter_sample_point(bundle, sizeof bundle, curves, sizeof curves, state, sizeof state, SID_FILTER_VOICE_REST, 0).answer;
}

/* Every kind of event, in every routing and mode. */
static void write_script(void)
{
    struct event *event = script.events;
    for (int pair = 0; pair < PAIRS; pair++) {
        uint8_t value = (uint8_t)pair;
        *event++ = (struct event){ .kind = SID_FILTER_ROUTING, .value = value };
        *event++ = (struct event){ .kind = SID_FILTER_MODE, .value = value };
        *event++ = (struct event){ .kind = SID_FILTER_CUTOFF_LOW, .value = value };
        *event++ = (struct event){ .kind = SID_FILTER_CUTOFF_HIGH, .value = value };
        for (int i = 0; i < EACH_SAMPLES; i++)
            *event++ = (struct event){ .kind = SID_FILTER_SAMPLE, .input_sum = SID_FILTER_VOICE_REST + SID_FILTER_VOICE_SWING,
                .source_energy = SID_FILTER_VOICE_SWING * SID_FILTER_VOICE_SWING };
        *event++ = (struct event){ .kind = SID_FILTER_RESET };
    }
}

/* Runs a call on the stack filled with a pattern: the bytes that it takes. */
static size_t taken(void (*call)(void), uint8_t pattern)
{
    memset(stack, pattern, sizeof stack);
    getcontext(&there);
    there.uc_stack.ss_sp = stack;
    there.uc_stack.ss_size = sizeof stack;
    there.uc_link = &here;
    makecontext(&there, call, 0);
    swapcontext(&here, &there);
    const uint8_t *deepest = stack;
    while (*deepest == pattern)
        deepest++;
    return (size_t)(frame - deepest);
}

/* Prints the most that a call takes: done, and with a wrong header of the bundle, where the check of the header takes more and a call that
 * is lent the bundle is refused; each with two patterns, since a byte may be written as it was. Says whether the answers were these. */
static int print_taken(const char *name, void (*call)(void), uint32_t refused)
{
    size_t most = 0;
    for (int i = 0; i < 4; i++) {
        uint8_t wrong = i >= 2;
        uint32_t number = wrong ? refused : SID_FILTER_DONE;
        bundle[55] ^= wrong;
        size_t bytes = taken(call, i % 2 ? 0xaa : 0x55);
        bundle[55] ^= wrong;
        if (answer.number != number) {
            fprintf(stderr, "stack: %s answers %lu\n", name, (unsigned long)answer.number);
            return 0;
        }
        most = bytes > most ? bytes : most;
    }
    printf("stack of %s: %lu bytes\n", name, (unsigned long)most);
    return 1;
}

int main(void)
{
    if (fread(bundle, 1, sizeof bundle, stdin) != sizeof bundle) {
        fprintf(stderr, "usage: stack <BUNDLE\n");
        return 1;
    }
    write_script();
    int good = print_taken("sid_filter_open", open_bundle, SID_FILTER_HEADER) &&
        print_taken("sid_filter_build_curves", build_curves, SID_FILTER_HEADER) &&
        print_taken("sid_filter_widen_state", widen_state, SID_FILTER_DONE) &&
        print_taken("sid_filter_run", run_script, SID_FILTER_HEADER) &&
        print_taken("sid_filter_collect", collect, SID_FILTER_DONE) &&
        print_taken("sid_filter_sample_curve", sample_curve, SID_FILTER_DONE) &&
        print_taken("sid_filter_summer", summer, SID_FILTER_HEADER) && print_taken("sid_filter_mixer", mixer, SID_FILTER_DONE) &&
        print_taken("sid_filter_volume", volume, SID_FILTER_DONE) &&
        print_taken("sid_filter_sample_point", sample_point, SID_FILTER_HEADER);
    return good ? 0 : 1;
}
