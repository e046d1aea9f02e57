#!/usr/bin/env python3
"""Times harmlist on recordings of 50, 500 and 5,000 windows, beside the same work in C by direct sums and
folded, and beside the build before a change where one is given, in turn in one run. All listings are
compared before anything is timed. Prints the median and minimum of each, the ratios, windows a second, how
the time of a window grows, and the resident memory.

harmlist.py REFERENCE FOLDER PLAIN CORE [BEFORE]"""

import os
import statistics
import subprocess
import sys
import time

REAL_TIME = 5  # windows a second: 200 ms each
RUNS = {50: 5, 500: 5, 5000: 3}


def resident(pid):
    """The peak resident memory of a running process in KB, 0 where it has ended."""
    try:
        with open(f"/proc/{pid}/status") as status:
            return max((int(line.split()[1]) for line in status if line.startswith("VmHWM")), default=0)
    except OSError:
        return 0


def listing(command, path):
    """The listing of a run that is not timed, and its peak resident memory in KB. The kernel's own peak of
    an ended child is no use here: it counts the memory of Python, before the program is loaded."""
    memory = 0
    with open(path, "rb") as recording:
        process = subprocess.Popen(command, stdin=recording, stdout=subprocess.PIPE)
        while process.poll() is None:
            memory = max(memory, resident(process.pid))
            time.sleep(0.001)
        output = process.stdout.read()
    assert process.returncode == 0, command
    return output, memory


def seconds(command, path):
    """Seconds of one run, from its start to its end."""
    with open(path, "rb") as recording:
        start = time.perf_counter()
        subprocess.run(command, stdin=recording, stdout=subprocess.DEVNULL, check=True)
        return time.perf_counter() - start


def main():
    reference, folder, plain, core, *before = sys.argv[1:]
    commands = {"core": [core]}
    if before:
        commands["before"] = before
    commands["C direct"] = [plain, "direct"]
    commands["C folded"] = [plain, "folded"]
    per_window = {}
    for windows, runs in RUNS.items():
        path = os.path.join(folder, f"recording_{windows}.txt")
        with open(path, "wb") as out:
            subprocess.run([reference, "recording", "10", str(windows), "1"], stdout=out, check=True)
        listings, memory = zip(*(listing(command, path) for command in commands.values()))
        assert all(one == listings[0] for one in listings), "the listings differ"
        print(f"{windows} windows: listings agree; core {memory[0]} KB resident; {runs} runs")
        times = {name: [] for name in commands}
        for _ in range(runs):
            for name, command in commands.items():
                times[name].append(seconds(command, path))
        os.remove(path)
        medians = {name: statistics.median(each) for name, each in times.items()}
        per_window[windows] = {name: median / windows for name, median in medians.items()}
        for name, median in medians.items():
            rate = windows / median
            print(
                f"  {name:8s}  median {median:.3f} s, minimum {min(times[name]):.3f} s;"
                f" {rate:.0f} windows a second, {rate / REAL_TIME:.0f} times real time;"
                f" core's ratio to it: medians {medians['core'] / median:.3f},"
                f" minima {min(times['core']) / min(times[name]):.3f}"
            )
    growth = (f"{name} {per_window[5000][name] / per_window[50][name]:.2f}" for name in commands)
    print("time of a window among 5,000 over that among 50: " + ", ".join(growth))


if __name__ == "__main__":
    main()
