"""Runs that end at each of 256 states from the first step of the counting on, in a random order and many times, each on the machine that the run before has
left: how many lines differ from what exec says of that input, and its reference machine, each by a process of its own. `ends.py PROFILE`"""
import random
import sys

from common import TO_COUNT, each, input_of, lines_of, run

PROFILE = ["--profile", sys.argv[1], "--steps", str(TO_COUNT + 1)]
STOPPING = ["--until", "loop", "--until", "exception"]
WAYS = [[], ["--jobs", "4"], ["--until", "0x00000004"], ["--reached"], ["--reached", "--jobs", "3"], ["--coverage", "words"], ["--coverage", "words", "--jobs", "4"]]

# what an end may be, by the words that `exec --all` prints of it
KINDS = {
    "in the handler": lambda words: int(words["sr"], 16) & 2,
    "in a delay slot": lambda words: words["slot"] != "-",
    "in a delay slot of the handler": lambda words: words["slot"] != "-" and int(words["sr"], 16) & 2,
    "with LLbit set": lambda words: words["llbit"] == "1",
    "between LL and SC": lambda words: words["llbit"] == "1" and words["pc"] in ("80000d1c", "80000d20"),
    "where interrupts are enabled": lambda words: int(words["sr"], 16) & 3 == 1,
}


def ended(options):
    """A function from how many NOPs are skipped to the end of that run by a process of its own: the line without its name, and the words of the dump."""

    def of(skipped):
        done = run(["exec", *PROFILE, *options, "--all", "--in", input_of(skipped).hex(), "counts.elf"])
        words = dict(pair for line in done.stdout.splitlines() for pair in zip(line.split()[::2], line.split()[1::2]))
        said = done.stderr.split()
        end = f"exception {said[3]} {said[5]}" if said else "steps"
        return f"steps {words['steps']} {end} out {words['out']}", words

    return of


def compare(order, options, ends):
    lines = run(["fuzz", "--out", *PROFILE, *options, "counts.elf"], lines_of(input_of(skipped) for skipped in order)).stdout.splitlines()
    differ = sum(1 for number, (line, skipped) in enumerate(zip(lines, order), 1) if line.partition(" reached ")[0] != f"{number} {ends[skipped][0]}")
    print("fuzz", *options, len(lines), "lines,", differ, "differ")


ends = each(ended([]), range(256))
stops = each(ended(STOPPING), range(256))
print("the reference machine: 256 ends,", sum(1 for one, other in zip(ends, each(ended(["--flat"]), range(256))) if one != other), "differ")
print("no end is", *[name for name, holds in KINDS.items() if not any(holds(words) for _, words in ends)] or ["of none of these kinds"])
source = random.Random(5)
order = [skipped for _ in range(10) for skipped in source.sample(range(256), 256)]
for way in WAYS:
    compare(order, way, ends)
compare(order, STOPPING, stops)
compare(order, [*STOPPING, "--jobs", "4"], stops)
