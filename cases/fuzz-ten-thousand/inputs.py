"""Ten thousand inputs, a line each. Their lengths are from 0 to 256, each of those at least 38 times: random bytes, brackets before a text of the parser's language,
such texts with some bytes changed, and such texts."""
import random

COUNT = 10000


def expression(source, depth):
    kind = source.randrange(8)
    if kind < 3 or depth == 0:
        return source.choice(("0", "1", "7", "12", "255", "65536", "2147483647", "a", "b", "z", "N", "\xe0", "\xe4"))
    if kind < 5:
        return "(" + expression(source, depth - 1) + ")"
    if kind == 5:
        return source.choice("abz\xe2") + "=" + expression(source, depth - 1)
    return expression(source, depth - 1) + source.choice("+++--***/") + expression(source, depth - 1)


def text(source, length):
    made = ""
    while len(made) < length:
        made += expression(source, source.randrange(7)) + ";"
    return bytearray(made[:length].encode("latin-1"))


def data_of(number):
    """The input of a number, from 0."""
    source = random.Random(number)
    length = number % 257
    kind = number // 257 % 5
    if kind == 0:
        return source.randbytes(length)
    if kind == 1:
        return b"(" * (length // 2) + text(source, length - length // 2)
    data = text(source, length)
    for _ in range(source.randrange(4) if kind == 2 and length else 0):
        data[source.randrange(length)] = source.randrange(256)
    return bytes(data)


for number in range(COUNT):
    print(data_of(number).hex())
