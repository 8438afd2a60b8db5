#!/usr/bin/env python3
"""Times programs that answer lines, a line at a time over pipes:

    bench/serve_turns.py day REQUESTS                   prints a mixed day of 64 tills, always the same
    bench/serve_turns.py turns AT_HAND DAY REPLIES COMMAND..
                                                        sends so many lines of DAY at once when those before are answered,
                                                        keeps the replies in REPLIES, and prints the milliseconds of a line
    bench/serve_turns.py opening RUNS COMMAND..         the least milliseconds from the start to a first reply, and the
                                                        memory then, of which shared pages count by share"""

import random
import subprocess
import sys
import time
from pathlib import Path

sys.path.insert(0, str(Path(__file__).resolve().parent.parent / "tests" / "lib"))
from days import day


def turns(at_hand, lines, command):
    """The replies, and the milliseconds of a line in each turn, in rising order."""
    process = subprocess.Popen(command, stdin=subprocess.PIPE, stdout=subprocess.PIPE)
    replies, times = [], []
    for first in range(0, len(lines), at_hand):
        burst = lines[first : first + at_hand]
        started = time.perf_counter()
        process.stdin.write(b"".join(burst))
        process.stdin.flush()
        replies += [process.stdout.readline() for _ in burst]
        times.append(1000 * (time.perf_counter() - started) / len(burst))
    process.stdin.close()
    if process.wait() != 0:
        sys.exit(f"serve_turns: {command} ended with status {process.returncode}")
    return replies, sorted(times)


def opening(command):
    """The milliseconds until an empty line has its reply, and the memory in kB then."""
    started = time.perf_counter()
    process = subprocess.Popen(command, stdin=subprocess.PIPE, stdout=subprocess.PIPE)
    process.stdin.write(b"\n")
    process.stdin.flush()
    process.stdout.readline()
    passed = 1000 * (time.perf_counter() - started)
    memory = Path(f"/proc/{process.pid}/smaps_rollup").read_text().split("Pss:")[1].split()[0]
    process.stdin.close()
    process.wait()
    return passed, int(memory)


def main():
    match sys.argv[1:]:
        case ["day", requests]:
            print("\n".join(day(random.Random(1541), int(requests), [400])))
        case ["turns", at_hand, path, kept, *command]:
            replies, times = turns(int(at_hand), Path(path).read_bytes().splitlines(keepends=True), command)
            Path(kept).write_bytes(b"".join(replies))
            count = len(times)
            mean, median, late = sum(times) / count, times[count // 2], times[count * 99 // 100]
            print(f"mean {mean:.3f} ms a request, median {median:.3f}, 99th percentile {late:.3f}")
        case ["opening", runs, *command]:
            passed, memory = min(opening(command) for _ in range(int(runs)))
            print(f"{passed:.1f} ms from the start to a first reply, {memory} kB of memory")
        case _:
            sys.exit(__doc__)


main()
