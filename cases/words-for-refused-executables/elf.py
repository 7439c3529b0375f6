"""Writes an ELF file to standard output: fields as NAME=NUMBER, and a program header for each TYPE,ADDRESS,FILESIZE,MEMSIZE.

Of each segment the file has as many zeros as FILESIZE says. Numbers are as in C; the names are those of FIELDS.
"""

import struct
import sys

FIELDS = {"class": 1, "data": 1, "ident": 1, "type": 2, "machine": 8, "version": 1, "entry": 0x80000000, "ehsize": 52, "phentsize": 32}

segments = []
for word in sys.argv[1:]:
    name, is_field, number = word.partition("=")
    if is_field:
        FIELDS[name] = int(number, 0)
    else:
        segments.append([int(number, 0) for number in word.split(",")])
order = ">" if FIELDS["data"] == 2 else "<"
file = b"\x7fELF" + bytes([FIELDS["class"], FIELDS["data"], FIELDS["ident"]]) + bytes(9)
file += struct.pack(
    order + "HHIIIIIHHHHHH", FIELDS["type"], FIELDS["machine"], FIELDS["version"], FIELDS["entry"], 52, 0, 0, FIELDS["ehsize"], FIELDS["phentsize"], len(segments), 0, 0, 0
)
offset = 52 + 32 * len(segments)
for kind, address, size, memory in segments:
    file += struct.pack(order + "IIIIIIII", kind, offset, address, 0, size, memory, 0, 0)
    offset += size
sys.stdout.buffer.write(file + bytes(offset - len(file)))
