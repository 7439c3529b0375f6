"""Compares the words that `fuzz --reached` names with the addresses that `trace` prints step by step: for each executable, after so many steps, in the first run of a
machine and in the second, and looking at each state and not."""

import subprocess
import sys


def said(words, text=""):
    return subprocess.run(words, input=text, capture_output=True, text=True, check=True).stdout.splitlines()


for image in sys.argv[1:]:
    for steps in ("1", "7", "30", "400"):
        traced = list(dict.fromkeys(line.split()[0] for line in said(["trace", "--steps", steps, image])))
        for until in ([], ["--until", "0x00000004"]):
            for line in said(["vmhost", "fuzz", "--reached", "--steps", steps, *until, image], "\n\n"):
                reached = line.split(" reached ")[1].split()
                if reached != traced:
                    print(image, steps, until, "differ:", *sorted(set(reached) ^ set(traced)))
    print(image, len(traced), "words")
