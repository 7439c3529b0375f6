"""How many of some lines of `vmhost fuzz` differ from what exec says of their inputs, each by a process of its own, and of each fourth the reference machine:
`compare.py FIRST LAST`, the numbers of the lines."""
import concurrent.futures
import os
import subprocess
import sys


def said_by(data, options):
    done = subprocess.run(["vmhost", "exec", "--steps", "20000", "--until", "loop", *options, "--in", data, "parser.elf"], capture_output=True, text=True, check=True)
    lines, words = done.stdout.splitlines(), done.stderr.split()
    return f"{lines[0]} {'loop ' + words[5] if words else 'steps'} {lines[-1]}"


def is_said(number, data, line):
    ways = [[], ["--flat"]] if number % 4 == 0 else [[]]
    return all(line == f"{number} {said_by(data, options)}" for options in ways)


def lines_in(name):
    with open(name, encoding="ascii") as file:
        return file.read().splitlines()


numbers = range(int(sys.argv[1]), int(sys.argv[2]) + 1)
chosen = slice(numbers.start - 1, numbers.stop - 1)
with concurrent.futures.ThreadPoolExecutor(os.cpu_count()) as pool:
    right = list(pool.map(is_said, numbers, lines_in("inputs")[chosen], lines_in("lines")[chosen]))
print(len(right), "lines,", right.count(False), "differ")
