"""That the words are those of a machine as it boots, and the second time round those of one that has counted. All 48 differ, so each of them shows whether
what it shows was put back. They are reckoned from the source and the standard, but for two of the second time: the registers that are used, and Random."""
from common import COUNTING, TO_COUNT, run

# how many steps there are to the instruction that reads Random, and from there to the one that reads Count
TO_RANDOM, TO_COUNT_READ = 266, 60
# the branch in whose delay slot the interrupt is taken
THIRD = 0x80000DE4

BOOT = (
    [0, 0, 0, 0, 0]  # registers, HI, LO, what SC gives
    + [0x1000, 0x2222, 7, 0, 0, 0x66666666, 0x66666666, 0, 0]  # memory
    + [0, 0x88888888, 0x99999999, 0xAAAAAAAA, 0, 1, 3, 0x41]  # the balloon and its pages, the instruction, the console
    + [0, 31 - (TO_RANDOM + 1) % 32, 0, 0, 0, 0, 0, TO_RANDOM + TO_COUNT_READ + 1, 0, 0, 0, 0x400, 0, 0]  # system registers
    + [0] * 12  # the TLB
)
COUNTED = (
    [None, sum(range(3, 26)) + 29 + 30 + 6 * 64, 3, 5, 1]
    + [0x1000 + 4 + 0x100, 0xABC, 8, 0x100, 0x10000, 0x65666666, 0x66666766, 1, 1]
    + [3, 0, 0, 0, 1, 2, 2, 0xFFFFFFFF]
    + [31, None, 0x2C7, 0x347, 0x40800000, 6, 0x80001001, TO_COUNT + COUNTING + BOOT[29], 0x40800000]
    + [TO_COUNT + COUNTING - 6 + 1 + 4, 0x8000, 0x80008800, THIRD, 0x80008000]
    + [0x400000, 0x2C7, 0x347, 0x402001, 0x2C7, 0x347, 0x404002, 0x2C7, 0x347, 0x406003, 0x2C7, 0x347]
)

digits = run(["fuzz", "--out", "--steps", "2000", "counts.elf"], "4100\n").stdout.split(" out ")[1].strip()
words = [int(digits[at : at + 8], 16) for at in range(0, len(digits), 8)]
boot, counted = words[:48], words[48:96]
wrong = [at for at in range(48) if boot[at] != BOOT[at] or COUNTED[at] not in (None, counted[at])]
print(len(boot), "words,", len(wrong), "wrong,", sum(1 for one, other in zip(boot, counted) if one == other), "that stay", *wrong)
