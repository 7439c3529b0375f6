#!/usr/bin/env python3
"""Writes a raw image of straight-line code: `make_image.py FILE WORDS`.

The code has no branch: it is a fixed mix of fourteen instructions, over and over. Loads and stores go to the page past
the code. The first two instructions put the address of that page into register 29, which no later one changes.
"""

import struct
import sys

KSEG0 = 0x80000000
PAGE = 4096
BASE = 29
BLOCK = 8192

SPECIAL = {"addu": 0x21, "subu": 0x23, "and": 0x24, "or": 0x25, "xor": 0x26, "nor": 0x27}
SHIFTS = {"sll": 0x00, "srl": 0x02, "sra": 0x03}
IMMEDIATES = {"addiu": 0x09, "ori": 0x0D}
MEMORY = {"lw": 0x23, "sw": 0x2B}

MIX = (
    "addiu lw addu sll ori sw subu and lui addu lw xor srl or addiu sw "
    "nor addu lw sra addiu or sw subu ori lw and addu sll sw addiu xor"
).split()


def encode(name, number):
    """The word of the instruction at this place; its operands depend on the place alone."""
    rd, rs, rt = 1 + number % 28, 1 + (number * 5 + 3) % 28, 1 + (number * 11 + 7) % 28
    if name in SPECIAL:
        return rs << 21 | rt << 16 | rd << 11 | SPECIAL[name]
    if name in SHIFTS:
        return rt << 16 | rd << 11 | (1 + number % 31) << 6 | SHIFTS[name]
    if name in IMMEDIATES:
        return IMMEDIATES[name] << 26 | rs << 21 | rd << 16 | number * 97 % 0x10000
    if name in MEMORY:
        return MEMORY[name] << 26 | BASE << 21 | rd << 16 | number * 4 % PAGE
    return 0x0F << 26 | rd << 16 | number * 31 % 0x10000


def image(words):
    """The bytes of an image of this many words, at least two."""
    data = KSEG0 + -(-words * 4 // PAGE) * PAGE
    head = [0x0F << 26 | BASE << 16 | data >> 16, 0x0D << 26 | BASE << 21 | BASE << 16 | data & 0xFFFF]
    block = [encode(MIX[number % len(MIX)], number) for number in range(BLOCK)]
    code = struct.pack("<%dI" % BLOCK, *block) * (words // BLOCK + 1)
    return (struct.pack("<2I", *head) + code)[: words * 4]


def main():
    file, words = sys.argv[1], int(sys.argv[2])
    with open(file, "wb") as out:
        out.write(image(words))


if __name__ == "__main__":
    main()
