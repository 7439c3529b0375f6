"""Machines that are ready at each state of the first counting: how many lines differ from what guests of a script say, which make those steps, take that
input then, and make as many steps again."""
from common import COUNTING, TO_COUNT, each, input_of, lines_of, run

STEPS = 1200
INPUTS = [input_of(skipped) for skipped in (255, 0, 130, 255)]


def by_script(made):
    """What the guests of a script put out, one for each input."""
    name = f"script-{made}"
    with open(name, "w", encoding="ascii") as out:
        out.write("frames 80\nslots 0\nseed 0\n" + "guest counts.elf 16 1\n" * len(INPUTS))
        for guest, data in enumerate(INPUTS):
            out.write(f"run {guest} {made}\nin {guest} {data.hex()}\nrun {guest} {STEPS}\ndrain {guest}\n")
    return [line.split()[2] for line in run(["sim", name]).stdout.splitlines() if line.startswith("drain ")]


def differing(made):
    """How many lines differ."""
    outputs = by_script(made) * 3
    count = 0
    for options in ([], ["--jobs", "2"], ["--reached"]):
        lines = run(["fuzz", "--out", "--ready", str(made), "--steps", str(STEPS), *options, "counts.elf"], lines_of(INPUTS * 3)).stdout.splitlines()
        wanted = [f"{number} steps {STEPS} steps out {output}" for number, output in enumerate(outputs, 1)]
        count += sum(1 for line, one in zip(lines, wanted, strict=True) if line.partition(" reached ")[0] != one)
    return count


# without input there is a step more to the counting
counts = each(differing, range(TO_COUNT, TO_COUNT + 1 + COUNTING + 1))
print(len(counts), "homes,", sum(counts), "lines differ")
