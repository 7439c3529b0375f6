"""How many instructions of the host a guest step takes, by callgrind: the table of host instructions of `bench/run`.

It is the difference of two runs of few steps and of many, so the start of the process, the reading of the file and the boot cancel
out. It doesn't depend on what else the host does, so each run is made once.
"""

import re
import subprocess
import sys

STEPS = (100_000, 1_100_000)
VALGRIND = ["valgrind", "--tool=callgrind", "--callgrind-out-file=/dev/null"]


def collected(words, steps):
    """How many instructions of the host a run takes that makes all of its steps."""
    done = subprocess.run(VALGRIND + words, stdout=subprocess.PIPE, stderr=subprocess.PIPE)
    found = re.search(rb"Collected : (\d+)", done.stderr)
    if done.returncode != 0 or not found or not done.stdout.startswith(b"steps %d\n" % steps):
        sys.exit(done.stderr.decode(errors="replace") + "bench: " + " ".join(words) + " was not counted")
    return int(found.group(1))


def a_step(words_of):
    """How many of them a step takes, of a program; `words_of` has the words that make it run so many steps."""
    few, many = (collected(words_of(steps), steps) for steps in STEPS)
    return (many - few) / (STEPS[1] - STEPS[0])
