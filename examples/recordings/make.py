#!/usr/bin/env python3
"""Makes the recordings for trial that lie beside this script, in the input form of harmlist.

All are currents at 230 V, 50 Hz, taken with a sensor and a converter that give 4,000 counts per
ampere, so K is 4,000 x 4,096 = 16,384,000 units per ampere. Three windows of 0.2 s each.

    heater_passes.txt   a heater of 10 A with a little distortion of the mains: every order passes
                        class A, and so class B
    supply_fails.txt    a rectifier with a large capacitor, which takes its current in short pulses
                        of 25 A: several odd orders are over their class A limits, and fewer over
                        those of class B
    dimmer.txt          a lamp behind a phase-cut dimmer that conducts half of each half-wave: every
                        order passes class A, and so class B
"""

import math
import os

COUNTS_PER_AMPERE = 4000
SYSTEM = 10
SAMPLES = 2048
WINDOWS = 3


def heater(angle):
    """10 A r.m.s. with 1 % of third and 0.5 % of fifth harmonic."""
    peak = 10 * math.sqrt(2)
    return peak * (math.sin(angle) + 0.01 * math.sin(3 * angle) + 0.005 * math.sin(5 * angle))


def supply(angle):
    """Pulses of 25 A, a cosine over the top 20 degrees of each half-wave."""
    width = math.radians(20)
    offset = (angle - math.pi / 2 + math.pi / 2) % math.pi - math.pi / 2
    sign = 1 if angle % (2 * math.pi) < math.pi else -1
    return sign * 25 * math.cos(offset / width * math.pi / 2) if abs(offset) < width else 0.0


def dimmer(angle):
    """3 A r.m.s. undimmed, cut off in the first half of each half-wave."""
    return 3 * math.sqrt(2) * math.sin(angle) if angle % math.pi >= math.pi / 2 else 0.0


def main():
    here = os.path.dirname(os.path.abspath(__file__))
    for name, current in [("heater_passes", heater), ("supply_fails", supply), ("dimmer", dimmer)]:
        with open(os.path.join(here, name + ".txt"), "w", newline="\n") as out:
            out.write(f"{SYSTEM:8d}\n")
            for i in range(WINDOWS * SAMPLES):
                angle = 2 * math.pi * SYSTEM * i / SAMPLES
                out.write(f"{round(COUNTS_PER_AMPERE * current(angle)):8d}\n")


if __name__ == "__main__":
    main()
