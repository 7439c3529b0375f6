"""What the scripts of this case share."""
import concurrent.futures
import os
import subprocess

# how many steps there are from the boot to the counting, where no NOP is skipped, and in the counting, with those of the handler and the jump back
TO_COUNT, COUNTING = 790, 178


def run(words, text=""):
    return subprocess.run(["vmhost", *words], input=text, capture_output=True, text=True, check=True)


def input_of(skipped):
    """An input that skips so many NOPs the first time round, and none the second."""
    return bytes([skipped * 7 + 1 & 255, skipped, 255 - skipped, 0])


def lines_of(inputs):
    return "".join(f"{data.hex()}\n" for data in inputs)


def each(function, arguments):
    """What a function gives of each argument, some at once."""
    with concurrent.futures.ThreadPoolExecutor(os.cpu_count()) as pool:
        return list(pool.map(function, arguments))
