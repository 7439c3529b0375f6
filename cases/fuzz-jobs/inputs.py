"""A thousand inputs: a line each in the file `lines`, and a file each in the folder `inputs`."""
import os
import random

source = random.Random(11)
inputs = [bytes(source.choice((0x62, 0x64, 0x66, 0x61, 0x62)) for _ in range(source.randint(0, 9))) for _ in range(1000)]
with open("lines", "w", encoding="ascii") as out:
    out.writelines(f"{data.hex()}\n" for data in inputs)
os.mkdir("inputs")
for number, data in enumerate(inputs, 1):
    with open(f"inputs/{number:04}", "wb") as out:
        out.write(data)
