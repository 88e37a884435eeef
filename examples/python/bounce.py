#!/usr/bin/env python3
"""usage: examples/python/bounce.py

Writes a state block and scripts by docs/FORMATS.md, byte by byte, runs them with tools/bounce, and reads the samples and the end state back: a sine in voice 1
through a low-pass filter whose cutoff rises, uncut, cut in two, and from a block without charges; at its end the volume goes to 0. Prints some of it and exits
with 1 where something is not as it should be.
"""
import math
import pathlib
import struct
import subprocess
import sys
import tempfile

ROOT = pathlib.Path(__file__).resolve().parent.parent.parent
# Samples a second, and the levels of a voice (include/sid_filter.h, Units).
CLOCK, REST, SWING, RISE = 985_248, 0.45085025, 0.15015182, 0.021486761
# The fields of a state block: cutoff, displacement, write base, pending, resonance, routing, mode, volume, a zero byte, band, low, source energy; behind them
# five charges, conductance code, activity, three blends, pulse pending. NARROW is the block without these.
NARROW = "<HhH6B3f"
STATE = NARROW + "5f2f3fB3x"
# The kinds of an event.
CUTOFF_LOW, CUTOFF_HIGH, ROUTING, MODE, SAMPLE, RESET = range(6)


def write(kind, value):
    """An event that writes a register."""
    return struct.pack("<BB2xff", kind, value, 0.0, 0.0)


def sample(level):
    """A sample, where voice 1 alone is routed."""
    return struct.pack("<BB2xff", SAMPLE, 0, level, (level - REST) ** 2)


def script(events):
    return struct.pack("<II", len(events), 8) + b"".join(events)


def sweep(hertz, samples, first, last):
    """A sine in voice 1 at full envelope. Every 16 samples the cutoff is written, low then high, from the first to the last."""
    events = []
    for i in range(samples):
        if i % 16 == 0:
            cutoff = first + (last - first) * i // (samples - 16)
            events += [write(CUTOFF_LOW, cutoff & 7), write(CUTOFF_HIGH, cutoff >> 3)]
        events.append(sample(REST + SWING * math.sin(2 * math.pi * hertz * i / CLOCK) + RISE))
    return events


def f32(number):
    """A number rounded to f32."""
    return struct.unpack("<f", struct.pack("<f", number))[0]


def conductance(volume):
    """The conductance code of a volume, each operation rounded."""
    weight = 0.0
    for bit, branch in enumerate((1.0, 2.0406976, 4.179677, 8.836269)):
        weight = f32(weight + f32(branch)) if volume >> bit & 1 else weight
    return f32(f32(f32(1.0760822) * weight) / f32(1 + f32(f32(0.007916901) * weight)))


def bounce(room, state, scripts):
    """Runs scripts from a state: the samples and the end state, as bytes."""
    (room / "state").write_bytes(state)
    names = [f"script_{i}" for i in range(len(scripts))]
    for name, events in zip(names, scripts):
        (room / name).write_bytes(script(events))
    ran = subprocess.run([ROOT / "tools/bounce", ROOT / "data/bundle.bin", ROOT / "data/decays.bin", "state", "output", *names], cwd=room)
    if ran.returncode != 0:
        sys.exit(f"bounce.py: tools/bounce ended with {ran.returncode}")
    return (room / "output").read_bytes(), (room / "state").read_bytes()


def main():
    # Cutoff 1,024 at rest, resonance 8, voice 1 routed, low-pass, volume 15; nothing charged.
    fields = 1024, 0, 1024, 0, 8, 1, 1, 15, 0, 0.0, 0.0, 0.0
    state = struct.pack(STATE, *fields, *[0.0] * 5, conductance(15), 0.0, *[0.0] * 3, 0)
    events = sweep(hertz=1000, samples=4000, first=1024, last=1600) + [write(MODE, 0x10)]
    with tempfile.TemporaryDirectory() as folder:
        room = pathlib.Path(folder)
        output, end = bounce(room, state, [events])
        cut = bounce(room, state, [events[:1501], events[1501:]])
        widened = bounce(room, struct.pack(NARROW, *fields), [events])
    samples = list(struct.iter_unpack("<4f", output))
    for i in range(0, len(samples), 500):
        print(f"sample {i}: high {samples[i][0]:+.6f}  band {samples[i][1]:+.6f}  low {samples[i][2]:+.6f}  selected {samples[i][3]:+.6f}")
    cutoff, displacement, base, pending, resonance, routing, mode, volume, _, band, low, energy, fast, slow, *rest = struct.unpack(STATE, end)
    print(f"end state: cutoff {cutoff}, displacement {displacement}, write base {base}, resonance {resonance}, routing {routing}, mode {mode}, volume {volume}, "
          f"band {band:+.6f}, low {low:+.6f}, source energy {energy:.6f}, volume charges {fast:+.4f} and {slow:+.4f}")
    checks = {
        "4,000 samples": len(samples) == 4000,
        "the cutoff ends at 1,600": cutoff == 1600,
        "resonance, routing and mode are as they began": (resonance, routing, mode) == (8, 1, 1),
        "the volume from 15 to 0 charges 3,152.0623 and 2,777.7222": (volume, fast, slow) == (0, f32(3152.0623), f32(2777.7222)),
        "nothing else is charged": not any(rest),
        "the sine comes through: low swings by more than 0.1": max(s[2] for s in samples) - min(s[2] for s in samples) > 0.1,
        "the script cut in two gives the same bytes": cut == (output, end),
        "so does the block without charges": widened == (output, end),
    }
    for what, so in checks.items():
        print(f"{'so' if so else 'NOT SO'}: {what}")
    sys.exit(not all(checks.values()))


if __name__ == "__main__":
    main()
