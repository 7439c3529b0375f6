"""Runs of each third length from no step to as many as come to the second counting: how many lines of four inputs differ from what exec says, by a process of its
own."""
from common import COUNTING, TO_COUNT, each, input_of, lines_of, run

INPUTS = [input_of(200), input_of(0)]


def differing(steps):
    outputs = [run(["exec", "--steps", str(steps), "--in", data.hex(), "counts.elf"]).stdout.splitlines()[-1] for data in INPUTS]
    lines = run(["fuzz", "--out", "--steps", str(steps), "counts.elf"], lines_of(INPUTS * 2)).stdout.splitlines()
    wanted = [f"{number} steps {steps} steps {output}" for number, output in enumerate(outputs * 2, 1)]
    return sum(1 for line, one in zip(lines, wanted, strict=True) if line != one)


counts = each(differing, range(0, 2 * TO_COUNT + COUNTING, 3))
print(len(counts), "lengths,", sum(counts), "lines differ")
