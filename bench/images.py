"""The images that `bench/run` measures. Each repeats a loop a number of times and then stops the machine."""

import struct

# where an image is placed and entered, and the kind of an ELF file's segment that is loaded
BASE, LOADED = 0x80000000, 1

# general registers by their number
ZERO, T1, T2, T3, T4, T5, T6, T7, T8, T9, T10 = range(11)
TURNS, COUNTED_STEPS = 16, 17
SP, RA = 29, 31

# system registers by their number
INDEX, ENTRY_LO0, ENTRY_LO1, PAGE_MASK, COUNT, ENTRY_HI, STATUS, EPC = 0, 2, 3, 5, 9, 10, 12, 14


def register(fn, rd=0, rs=0, rt=0, sa=0):
    return rs << 21 | rt << 16 | rd << 11 | sa << 6 | fn


def immediate(op, rt=0, rs=0, imm=0):
    return op << 26 | rs << 21 | rt << 16 | imm & 0xFFFF


def addu(rd, rs, rt):
    return register(0x21, rd, rs, rt)


def xor(rd, rs, rt):
    return register(0x26, rd, rs, rt)


def srl(rd, rt, sa):
    return register(0x02, rd, 0, rt, sa)


def addiu(rt, rs, imm):
    return immediate(0x09, rt, rs, imm)


def andi(rt, rs, imm):
    return immediate(0x0C, rt, rs, imm)


def ori(rt, rs, imm):
    return immediate(0x0D, rt, rs, imm)


def lui(rt, imm):
    return immediate(0x0F, rt, 0, imm)


def slti(rt, rs, imm):
    return immediate(0x0A, rt, rs, imm)


def lw(rt, offset, base):
    return immediate(0x23, rt, base, offset)


def lbu(rt, offset, base):
    return immediate(0x24, rt, base, offset)


def sw(rt, offset, base):
    return immediate(0x2B, rt, base, offset)


def beq(rs, rt, words):
    """To so many words after the slot."""
    return immediate(0x04, rt, rs, words)


def bne(rs, rt, words):
    return immediate(0x05, rt, rs, words)


def jal(address):
    return 0x03 << 26 | address >> 2 & 0x3FFFFFF


def jr(rs):
    return register(0x08, 0, rs)


def sb(rt, offset, base):
    return immediate(0x28, rt, base, offset)


def mfc0(rt, rd):
    return 0x10 << 26 | rt << 16 | rd << 11


def mtc0(rt, rd):
    return 0x10 << 26 | 0x04 << 21 | rt << 16 | rd << 11


NOP = 0
SYSCALL = 0x0000000C
TLBWI, ERET, WAIT = 0x42000002, 0x42000018, 0x42000020

COUNTED = [
    addiu(T1, ZERO, 1000),
    addu(T2, T2, T1),
    bne(T1, ZERO, -2),
    addiu(T1, T1, -1),
]

# 1,024 words from 80004000 to 80006000
COPY = [
    lui(T4, 0x8000),
    ori(T5, T4, 0x4000),
    ori(T6, T4, 0x6000),
    addiu(T7, ZERO, 1024),
    lw(T8, 0, T5),
    addiu(T5, T5, 4),
    sw(T8, 0, T6),
    addiu(T7, T7, -1),
    bne(T7, ZERO, -5),
    addiu(T6, T6, 4),
]

# the CRC-32 of 1,024 bytes at 80000000, a bit at a time
CRC = [
    lui(T3, 0xEDB8),
    ori(T3, T3, 0x8320),
    lui(T5, 0x8000),
    addiu(T6, ZERO, 1024),
    addiu(T2, ZERO, -1),
    lbu(T10, 0, T5),
    addiu(T9, ZERO, 8),
    xor(T2, T2, T10),
    andi(T8, T2, 1),
    beq(T8, ZERO, 2),
    srl(T2, T2, 1),
    xor(T2, T2, T3),
    addiu(T9, T9, -1),
    bne(T9, ZERO, -6),
    NOP,
    addiu(T6, T6, -1),
    bne(T6, ZERO, -12),
    addiu(T5, T5, 1),
]

# the fifteenth Fibonacci number by two calls each; the function is at 80000000, where the image begins
FIB = 0x80000000 + 4 * 2
FIB_FUNCTION = [
    beq(ZERO, ZERO, 19),
    NOP,
    slti(T8, T4, 2),
    bne(T8, ZERO, 14),
    addu(T2, T4, ZERO),
    addiu(SP, SP, -12),
    sw(RA, 8, SP),
    sw(T4, 4, SP),
    jal(FIB),
    addiu(T4, T4, -1),
    sw(T2, 0, SP),
    lw(T4, 4, SP),
    jal(FIB),
    addiu(T4, T4, -2),
    lw(T8, 0, SP),
    addu(T2, T2, T8),
    lw(RA, 8, SP),
    addiu(SP, SP, 12),
    jr(RA),
    NOP,
]
CALL_FIB = [
    lui(SP, 0x8000),
    ori(SP, SP, 0xF000),
    jal(FIB),
    addiu(T4, ZERO, 15),
]

# on to 00401000, by way of entry 0: both pages of the pair are at physical 1000, where the code goes on
TO_MAPPED = [
    mtc0(ZERO, STATUS),
    mtc0(ZERO, INDEX),
    mtc0(ZERO, PAGE_MASK),
    lui(T1, 0x0040),
    mtc0(T1, ENTRY_HI),
    addiu(T2, ZERO, 0x47),
    mtc0(T2, ENTRY_LO0),
    mtc0(T2, ENTRY_LO1),
    TLBWI,
    ori(T1, T1, 0x1000),
    jr(T1),
    NOP,
]
TO_MAPPED += [NOP] * (1024 - len(TO_MAPPED))

# what stands before a loop, and the loop; `calling` makes one of a compiled program
LOOPS = [
    ("counted loop", [], COUNTED),
    ("memory copy", [], COPY),
    ("CRC-32, a bit at a time", [], CRC),
    ("recursion", FIB_FUNCTION, CALL_FIB),
    ("counted loop through the TLB", TO_MAPPED, COUNTED),
]

# the console of a machine of ours is at bf000000: its status, and its output eight bytes on
CONSOLE = [lui(T5, 0xBF00)]

# on past a handler of exceptions, which stands at 80000180 and goes on behind the instruction that it came from
PAST_HANDLER = [beq(ZERO, ZERO, 0x63), mtc0(ZERO, STATUS)]
PAST_HANDLER += [NOP] * (0x60 - len(PAST_HANDLER))
PAST_HANDLER += [mfc0(T6, EPC), addiu(T6, T6, 4), mtc0(T6, EPC), ERET]

# loops that reach the clock, a device or a handler in each turn, of five instructions and of nine, which other emulators' machines have
# otherwise or not at all
SYSTEM_LOOPS = [
    ("reading Count", [], [mfc0(T2, COUNT), addu(T3, T3, T2)]),
    ("looking for input", CONSOLE, [lw(T2, 0, T5), andi(T2, T2, 1)]),
    ("writing to the console", CONSOLE, [sw(T2, 8, T5), addiu(T2, T2, 1)]),
    ("waiting", [], [WAIT, addiu(T2, T2, 1)]),
    ("system calls", PAST_HANDLER, [SYSCALL, addiu(T2, T2, 1)]),
]

# what ends a run: QEMU's Malta board resets, GXemul's test machine halts
STOP_QEMU = [lui(T1, 0xBF00), ori(T1, T1, 0x0500), addiu(T2, ZERO, 0x42), sw(T2, 0, T1)]
STOP_GXEMUL = [lui(T1, 0xB000), sb(T2, 0x10, T1)]


def repeated(before, loop, turns, stop):
    """The words of an image that makes a loop so many times, below 2^32. Where it doesn't stop the machine it leaves
    Count in register 17, which a machine of ours moves by one a step, and goes round."""
    start = before + [lui(TURNS, turns >> 16), ori(TURNS, TURNS, turns)]
    end = [addiu(TURNS, TURNS, -1), bne(TURNS, ZERO, -len(loop) - 2), NOP]
    return start + loop + end + (stop or [mfc0(COUNTED_STEPS, COUNT)]) + [beq(ZERO, ZERO, -1), NOP]


def loaded(program):
    """The words that an ELF file has for its segments, from 80000000 on, with zeros between them, and where it is entered."""
    entry, table = struct.unpack_from("<II", program, 24)
    size, count = struct.unpack_from("<HH", program, 42)
    memory = bytearray()
    for header in range(table, table + size * count, size):
        kind, offset, address, _, length = struct.unpack_from("<5I", program, header)
        if kind == LOADED and length > 0:
            start = address - BASE
            memory.extend(bytes(max(0, start + length - len(memory))))
            memory[start : start + length] = program[offset : offset + length]
    memory.extend(bytes(-len(memory) % 4))
    return list(struct.unpack("<%dI" % (len(memory) // 4), memory)), entry


def calling(program):
    """What stands before a loop that calls the function at which a program of examples/gnu/build is entered, and the loop. The first
    two words, where a TLB refill would be entered, lead behind the program. Its `.bss` has no zeros at first: QEMU's board has bytes of
    its own at 80002000, over which it lets no image be placed. The stack is at the end of 16 pages. Register 16 is kept by the function,
    as the System V ABI has it."""
    words, entry = loaded(program)
    before = [beq(ZERO, ZERO, len(words) - 1), NOP] + words[2:]
    return before, [lui(SP, 0x8001), addiu(SP, SP, -16), jal(entry), NOP]


def raw(words):
    return b"".join((word & 0xFFFFFFFF).to_bytes(4, "little") for word in words)


def elf(words):
    """An ELF file with one segment at 80000000, where it is entered."""
    code = raw(words)
    identification = b"\x7fELF\x01\x01\x01" + bytes(9)
    header = struct.pack("<HHIIIIIHHHHHH", 2, 8, 1, BASE, 52, 0, 0x50001000, 52, 32, 1, 40, 0, 0)
    segment = struct.pack("<IIIIIIII", LOADED, 84, BASE, BASE, len(code), len(code), 7, 4)
    return identification + header + segment + code
