"""Runs a thousand inputs by `vmhost fuzz`, and each by an `exec` of its own: how many lines differ from what exec says."""
import random
import subprocess

OPTIONS = ["--steps", "60", "--until", "loop", "--until", "exception"]


def end_of(said):
    words = said.split()
    if not words:
        return "steps"
    if words[2] == "a":
        return f"loop {words[5]}"
    return f"exception {words[3]} {words[5]}"


def line_of(number, data):
    command = ["vmhost", "exec", *OPTIONS, "--in", data.hex(), "take.elf"]
    done = subprocess.run(command, capture_output=True, text=True, check=True)
    lines = done.stdout.splitlines()
    return f"{number} {lines[0]} {end_of(done.stderr)} {lines[-1]}"


source = random.Random(7)
inputs = [bytes(source.choice((0x62, 0x64, 0x66, 0x61, 0x62)) for _ in range(source.randint(0, 9))) for _ in range(1000)]
text = "".join(f"{data.hex()}\n" for data in inputs)
done = subprocess.run(["vmhost", "fuzz", "--out", *OPTIONS, "take.elf"], input=text, capture_output=True, text=True, check=True)
found = done.stdout.splitlines()
wanted = [line_of(number, data) for number, data in enumerate(inputs, 1)]
print(len(found), "lines,", sum(1 for one, other in zip(found, wanted) if one != other), "differ")
print(" ".join(sorted({line.split()[3] for line in found})))
