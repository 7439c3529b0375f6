"""What the checks of the crates above read of a source of Rattle: its types, traits, signatures, contracts, ghost items, models,
constants and statics, without comments, bodies of functions and private functions.

`read_above(text)` is that part of a text. It rests on the layout of `rt fmt`: a body's braces stand on lines of their own, or the first ends
the line of the signature, and the last stands as far in as the function. What isn't laid out so is kept as it stands, so that a change there
counts as one of a contract.
"""

import functools
import re

# a function as `rt fmt` lays it out: how far in it stands, what makes it public, and its name
FUNCTION = re.compile(r"^(?P<indent> *)(?P<public>pub(?:\([a-z ]+\))? )?(?:(?:const|unsafe|extern) )*fn (?P<name>\w+)", re.M)
# attributes of a function that say how it is proved, compiled or run, and nothing of what it promises
ATTRIBUTE = re.compile(r"^ *#\[(?:tactic|inline|cold|test)\b.*\]$")
# an import that no other crate sees
IMPORT = re.compile(r"^(?P<start> *(?:ghost )?use )(?P<path>[^;]*);$", re.M)
TEST_MODULE = re.compile(r"^ *#\[cfg\(test\)\]\n *mod (?P<name>\w+);\n", re.M)
MODULE = re.compile(r"^mod \w+;\n", re.M)
CLAUSE = re.compile(r"\b(?:requires|ensures)\b")
CHARACTER = re.compile(r"'(?:\\(?:x[0-9a-f]{2}|u\{[0-9a-fA-F_]+\}|.)|[^'\\\n])'")
RAW_STRING = re.compile(r'r(#*)"')


class Unsure(Exception):
    """A text that isn't laid out as this script knows it."""


def covered(text):
    """A text with blanks in place of what stands in comments, strings and characters, so that its braces are those of the code. Comments go
    from the second text that is answered, and strings and characters stay there."""
    shapes, kept = list(text), list(text)

    def blank(start, end, *texts):
        for each in texts:
            each[start:end] = [it if it == "\n" else " " for it in each[start:end]]

    at = 0
    while at < len(text):
        before = text[at - 1] if at else " "
        is_word = before.isalnum() or before == "_"
        raw = RAW_STRING.match(text, at) if text[at] == "r" and not is_word else None
        character = CHARACTER.match(text, at) if text[at] == "'" and (not is_word or byte_mark(text, at)) else None
        if text.startswith("//", at):
            end = text.find("\n", at)
            end = len(text) if end < 0 else end
            blank(at, end, shapes, kept)
        elif text.startswith("/*", at):
            raise Unsure("a comment in braces")
        elif raw:
            end = text.find('"' + raw.group(1), raw.end())
            if end < 0:
                raise Unsure("a string without an end")
            end += 1 + len(raw.group(1))
            blank(at, end, shapes)
        elif text[at] == '"':
            end = at + 1
            while end < len(text) and text[end] != '"':
                end += 2 if text[end] == "\\" else 1
            if end >= len(text):
                raise Unsure("a string without an end")
            end += 1
            blank(at, end, shapes)
        elif character:
            end = character.end()
            blank(at, end, shapes)
        else:
            end = at + 1
        at = end
    return "".join(shapes), "".join(kept)


def byte_mark(text, at):
    """Whether the letter before a quote begins a byte, as in b'x', and ends no name."""
    return text[at - 1] == "b" and not (at > 1 and (text[at - 2].isalnum() or text[at - 2] in "_'"))


def closing(shapes, at):
    """The place of the bracket that closes the one at a place."""
    depth = 0
    for place in range(at, len(shapes)):
        if shapes[place] in "([{":
            depth += 1
        elif shapes[place] in ")]}":
            depth -= 1
            if depth == 0:
                return place
    raise Unsure("a bracket that nothing closes")


def body_of(shapes, function):
    """Where the body of a function begins and ends, with its braces, or None for a signature that a semicolon ends."""
    at = part = function.end()
    while True:
        if at >= len(shapes):
            raise Unsure("a function without an end")
        if shapes[at] == ";":
            return None
        if shapes[at] == "{" and not CLAUSE.search(shapes, part, at):
            break
        if shapes[at] in "([{":
            at = closing(shapes, at)
            if shapes[at] == "}":
                part = at + 1
        at += 1
    end = closing(shapes, at) + 1
    line = shapes[shapes.rfind("\n", 0, at) + 1:at]
    last = shapes[shapes.rfind("\n", 0, end) + 1:end - 1]
    indent = function.group("indent")
    is_empty = shapes[at:end] == "{}"
    if not is_empty and (last != indent or not shapes.startswith("{\n", at) or line.strip() and not line.startswith(indent)):
        raise Unsure(f"the body of {function.group('name')}")
    return at, end


def block_around(shapes, at):
    """What stands before the innermost brace that is open at a place: the head of an impl, a trait or a module, or nothing."""
    depth = 0
    for place in range(at - 1, -1, -1):
        if shapes[place] == "}":
            depth += 1
        elif shapes[place] == "{":
            if depth == 0:
                start = max(shapes.rfind(mark, 0, place) for mark in ";{}")
                return shapes[start + 1:place].strip()
            depth -= 1
    return ""


def is_hidden(shapes, function):
    """Whether no other crate can name a function: it is private, of a module or of a type's own methods."""
    if function.group("public"):
        return False
    head = re.sub(r"^(?: *#\[.*\]\n)+", "", block_around(shapes, function.start())).strip()
    return head == "" or head.startswith("impl") and not re.search(r"\bfor\b(?!<)", head)


def without(text, spans):
    """A text without these parts of it, which may lie in one another."""
    left, at = [], 0
    for start, end in sorted(spans):
        if start >= at:
            left.append(text[at:start])
        at = max(at, end)
    return "".join([*left, text[at:]])


def attributes_before(text, at):
    """Where the attributes of how a function is proved or compiled begin that stand right before a place."""
    while True:
        start = text.rfind("\n", 0, max(at - 1, 0)) + 1
        if at == 0 or not ATTRIBUTE.match(text[start:at - 1]):
            return at
        at = start


def is_named(name, text):
    """Whether a name that is imported, or an operator by its parts, stands in a text."""
    name = name.strip().rpartition(" as ")[2]
    if name in ("self", "*", "_", ""):
        return True
    parts = [it for it in name.split("◌") if it.strip("[](){}⟨⟩ ")]
    return all(re.search(rf"(?<!\w){re.escape(it)}(?!\w)" if it.replace("_", "").isalnum() else re.escape(it), text) for it in parts)


def needed_imports(text):
    """A text whose private imports have only the names that stand elsewhere in it."""
    rest = IMPORT.sub("", text)

    def needed(line):
        path = line.group("path")
        head, brace, names = path.partition("{")
        if not brace:
            return line.group() if is_named(path.rpartition("::")[2].rpartition(".")[2], rest) else ""
        if "{" in names or not names.endswith("}"):
            return line.group()
        left = sorted(it.strip() for it in names[:-1].split(",") if it.strip() and is_named(it.strip(), rest))
        return f"{line.group('start')}{head}{{{', '.join(left)}}};" if left else ""

    return IMPORT.sub(needed, text)


def test_modules(text):
    """The names of the modules that a source has for its tests alone."""
    return TEST_MODULE.findall(text)


@functools.lru_cache(maxsize=None)
def read_above(text):
    """The part of a source that the checks of the crates above read, and why the script kept more of it than that, if it did."""
    try:
        shapes, kept = covered(text)
    except Unsure as why:
        return text, [str(why)]
    spans, doubts = [], []
    for function in FUNCTION.finditer(shapes):
        try:
            body = body_of(shapes, function)
        except Unsure as why:
            doubts.append(str(why))
            continue
        start = attributes_before(shapes, function.start())
        if body and is_hidden(shapes, function):
            spans.append((start, body[1]))
        else:
            spans.append((start, function.start()))
            if body:
                spans.append(body)
    left = without(kept, spans)
    left = TEST_MODULE.sub("", left)
    left = MODULE.sub("", left)
    left = needed_imports(left)
    return "".join(line.rstrip() + "\n" for line in left.splitlines() if line.strip()), doubts
