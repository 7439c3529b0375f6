"""How many guest instructions a second a guest makes in runs of few steps: the table of slices of `bench/run`.

A script for `vmhost sim` has a guest make so many runs of so many steps each. Each run has a reply; what that takes is told by a
script whose runs have no step, and is taken off. What a run begins and ends with stays in.
"""

import os
import subprocess
import sys
import time

import images

SIZES = (256, 1024, 4096)
LOOPS = ("counted loop", "CRC-32, a bit at a time")
PAGES = 16
FOREVER = 0x7FFFFFFF
# how many steps the two scripts of a size make, and how many runs the two without steps have
STEPS = (10_000_000, 110_000_000)
REPLIES = (10_000, 410_000)


def write_guest(folder, before, loop):
    with open(os.path.join(folder, "guest.elf"), "wb") as file:
        file.write(images.elf(images.repeated(before, loop, FOREVER, None)))


class Sim:
    """A program's `sim`, which does scripts in a folder. One that doesn't know `repeat` gets a line for each run."""

    def __init__(self, program, folder):
        self.words, self.folder, self.repeats = [program, "sim", "script"], folder, True
        self.write(1, 0)
        self.repeats = subprocess.run(self.words, cwd=folder, stdout=subprocess.DEVNULL, stderr=subprocess.DEVNULL).returncode == 0

    def write(self, count, size):
        """Writes the script of so many runs of so many steps each, of a guest with frames for all of its pages."""
        run = "run 0 %d" % size
        lines = ["frames %d" % PAGES, "slots 0", "seed 0", "guest guest.elf %d 100" % PAGES]
        lines += ["repeat %d" % count, run, "end"] if self.repeats else [run] * count
        with open(os.path.join(self.folder, "script"), "w", encoding="ascii") as file:
            file.write("\n".join(lines) + "\n")

    def check(self, count, size):
        """Ends the benchmark where a run of the script doesn't make all of its steps."""
        self.write(count, size)
        done = subprocess.run(self.words, cwd=self.folder, stdout=subprocess.PIPE)
        if done.returncode != 0 or done.stdout != b"run 0 done %d\n" % size * count:
            sys.exit("bench: %s did not make %d runs of %d steps" % (self.words[0], count, size))

    def seconds(self, count, size):
        """How long the script takes, whose replies go nowhere."""
        self.write(count, size)
        start = time.perf_counter()
        subprocess.run(self.words, cwd=self.folder, stdout=subprocess.DEVNULL, check=True)
        return time.perf_counter() - start


def once(sims, counts, size, repetitions):
    """How long a run of so many steps takes with its reply, in seconds, of each program; they take turns."""
    times = {}
    for count in counts:
        for sim in sims:
            sim.check(count, size)
        for _ in range(repetitions):
            for sim in sims:
                taken = sim.seconds(count, size)
                times[sim, count] = min(taken, times.get((sim, count), taken))
    few, many = counts
    return [(times[sim, many] - times[sim, few]) / (many - few) for sim in sims]


def cell(rates):
    """A rate, and where there is one before it, that and how many times as fast it is now."""
    text = " ".join("%.1f" % (rate / 1e6) for rate in rates)
    return text + " %.2f" % (rates[0] / rates[1]) if len(rates) == 2 else text


def row(name, cells):
    return "%-30s" % name + "".join("%24s" % text for text in cells)


def table(programs, folder, repetitions):
    """The lines of the table, of a program and, where it is given, of the one before, as they are measured."""
    yield "million guest instructions a second in runs of so many steps each, best of %d" % repetitions
    if len(programs) == 2:
        yield "each with the rate before behind it, and how many times as fast it is"
    yield row("", ["%s steps" % format(size, ",") for size in SIZES])
    loops = [it for it in images.LOOPS if it[0] in LOOPS]
    write_guest(folder, *loops[0][1:])
    sims = [Sim(program, folder) for program in programs]
    replies = once(sims, REPLIES, 0, repetitions)
    for name, before, loop in loops:
        write_guest(folder, before, loop)
        cells = []
        for size in SIZES:
            taken = once(sims, [steps // size for steps in STEPS], size, repetitions)
            cells.append(cell([size / (run - reply) for run, reply in zip(taken, replies)]))
        yield row(name, cells)
    yield "taken off for each run and its reply, in microseconds: " + " ".join("%.3f" % (reply * 1e6) for reply in replies)
