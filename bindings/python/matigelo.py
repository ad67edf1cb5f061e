"""Reads Jsonnet sources: bytes in; a tree, or a refusal with its place.

    >>> import matigelo
    >>> tree = matigelo.read(b"-a*b")
    >>> print(tree.show())
    prefix operator=1
      infix operator=0 span=(2, 3)
        variable span=(1, 2) name='a'
        variable span=(3, 4) name='b'
    >>> print(matigelo.read(b"1 2"))
    5: another kind of lexeme is wanted, at bytes 2 to 3

An image that comes from elsewhere is read back; no byte of it is trusted.

    >>> matigelo.back(matigelo.image(b"-a*b")) == tree
    True
    >>> print(matigelo.back(b"\\x02\\x00\\x00\\xff"))
    13: no record has this tag, at byte 3

A station's text, JSON (RFC 8259), is read to the same tree.

    >>> print(matigelo.json(b'{"level": -1.5}').show())
    object count=1
      field span=(1, 8) computed=False plus=False method=False parameters=0 visibility=0
        string text='level'
        prefix operator=1
          number text='1.5'
    >>> print(matigelo.json(b"[1,]"))
    19: no JSON text goes on there, at bytes 3 to 3

Every answer is the proved reader's (crates/matigelo). The shared library is made by `bindings/test`, or by hand:

    (cd crates/matigelo && rt lib)
    cc -shared -o target/bindings/libmatigelo.so -Wl,--whole-archive crates/matigelo/out/libmatigelo.a -Wl,--no-whole-archive

MATIGELO_LIB names another file. Reading a source recurses: a thread of your own needs 512 KiB of stack (threading.stack_size).
"""
from __future__ import annotations

import ctypes
import os
from dataclasses import dataclass, field
from typing import Any, Iterator, Union

LONGEST_SOURCE = 65_000
IMAGE_FACTOR = 16  # an image has at most so many bytes for each byte of its source

EXP_DESTRUCT = 1
EXP_OBJECT_ITERATION = 2
EXP_NULL_COAELSE = 4
PUBLISHED_SIGNS = 8

# Why a source or a station's text is refused: a line for each number, as in crates/grammar/src/numbers.rt; behind them what crates/json has of its own.
NUMBERS = {
    1: "the setting is above 15",
    2: "the source is longer than 65,000 bytes",
    3: "the source is not UTF-8",
    4: "a bad lexeme stands there",
    5: "another kind of lexeme is wanted",
    6: "a field name or a pattern is wanted",
    7: "an expression is wanted",
    8: "what stands there is misplaced",
    9: "a string has a bad escape",
    11: "phrases would nest 201 deep",
    12: "the image is longer than the output",
    17: "a number is more than a double holds",
    19: "no JSON text goes on there",
}

# Why an image is refused: a line for each number, as in crates/images/specs/Numbers.antt.
BACK_NUMBERS = {
    13: "no record has this tag",
    14: "a length, a flag or an enum byte is wrong",
    15: "children are missing, or trees are left over",
    16: "no source gives this text, name, shape, root or span",
    21: "the list is too short",
    24: "the array for the links is too short",
}

# The records, as README.md's table has them: tag, name, the parts of the payload. A part is NAME:SORT; sorts are b (a byte), f (a flag), n (a number of
# two bytes), s (a span), t (a text up to the payload's end). `slots` is the sum of start 1, end 2, step 4. Which records are a record's children,
# `matigelo_back` finds.
RECORDS = {
    1: ("identity", "which:b span:s"),
    2: ("null", ""),
    3: ("bool", "value:f"),
    4: ("number", "text:t"),
    5: ("string", "text:t"),
    6: ("variable", "span:s name:t"),
    7: ("array", "count:n"),
    8: ("array comprehension", "clauses:n"),
    9: ("object", "count:n"),
    10: ("object comprehension", "members:n clauses:n"),
    11: ("extension", ""),
    12: ("prefix", "operator:b"),
    13: ("infix", "operator:b span:s"),
    14: ("assert expression", ""),
    15: ("local", "binds:n"),
    16: ("import", "which:b span:s"),
    17: ("error", "span:s"),
    18: ("call", "span:s tailstrict:f positional:n named:n"),
    19: ("named argument", "name:t"),
    20: ("index", "span:s first:f null_safe:f"),
    21: ("function", "span:s parameters:n"),
    22: ("if", "span:s has_else:f"),
    23: ("slice", "slots:b start:s end:s step:s"),
    24: ("bind", "is_function:f parameters:n"),
    25: ("name pattern", "span:s name:t"),
    26: ("skip", ""),
    27: ("array pattern", "leading:n rest:b trailing:n name:t"),
    28: ("object pattern", "fields:n rest:b name:t"),
    29: ("pattern field", "has_pattern:f has_default:f default:s name:t"),
    30: ("parameter", "has_default:f"),
    31: ("field", "span:s computed:f plus:f method:f parameters:n visibility:b"),
    32: ("assert", "span:s has_message:f"),
    33: ("for", ""),
    34: ("if clause", "span:s"),
    35: ("object iteration", "visibility:b key:t"),
}
INFIX = 13

# What an object of the planner's list raises.
RAISES = ("undecided", "mass", "depth")


@dataclass(frozen=True)
class Refusal:
    """A source or a station's text that has no tree. `start` and `end` are bytes of the source; what `detail` says is in README.md's table of refusals."""

    number: int
    start: int
    end: int
    detail: int

    def __str__(self) -> str:
        words = f"{self.number}: {NUMBERS[self.number]}"
        return words if self.number in (1, 2, 12) else f"{words}, at bytes {self.start} to {self.end}"


@dataclass(frozen=True)
class BadImage:
    """An image that is no tree's. `offset` is that of its first bad record, or its length where the fault is seen at its end."""

    number: int
    offset: int

    def __str__(self) -> str:
        return f"{self.number}: {BACK_NUMBERS[self.number]}, at byte {self.offset}"


@dataclass(frozen=True)
class Listing:
    """An object by its record's offset in the image, what it raises, and where the name of the first such field stands in the source."""

    offset: int
    raises: str
    span: tuple[int, int]


@dataclass
class Tree:
    """A record with its children. `parts` has what its payload says, by the names of RECORDS: numbers, flags, spans as pairs, texts. An infix record of
    an image from before such records had a span has none in it."""

    tag: int
    name: str
    parts: dict[str, Any]
    children: list[Tree] = field(default_factory=list, repr=False)

    def walk(self) -> Iterator[tuple[int, Tree]]:
        """Each record from the root on, with how deep it stands. No recursion: a tree may be as deep as its source is long."""
        left = [(0, self)]
        while left:
            depth, tree = left.pop()
            yield depth, tree
            left += [(depth + 1, child) for child in reversed(tree.children)]

    def show(self) -> str:
        lines = []
        for depth, tree in self.walk():
            lines.append("  " * depth + " ".join([tree.name] + [f"{k}={v!r}" for k, v in tree.parts.items()]))
        return "\n".join(lines)


def _library() -> ctypes.CDLL:
    here = os.path.dirname(os.path.abspath(__file__))
    name = os.environ.get("MATIGELO_LIB") or os.path.join(here, "..", "..", "target", "bindings", "libmatigelo.so")
    library = ctypes.CDLL(name)
    library.matigelo_read.restype = None
    library.matigelo_read.argtypes = [ctypes.c_uint64, ctypes.c_char_p, ctypes.c_size_t, ctypes.c_void_p, ctypes.c_size_t, ctypes.POINTER(ctypes.c_uint64 * 5)]
    library.matigelo_json.restype = None
    library.matigelo_json.argtypes = library.matigelo_read.argtypes[1:]
    library.matigelo_back.restype = None
    library.matigelo_back.argtypes = [ctypes.c_char_p, ctypes.c_size_t, ctypes.c_void_p, ctypes.c_size_t, ctypes.POINTER(ctypes.c_uint64 * 3)]
    library.matigelo_mass.restype = None
    library.matigelo_mass.argtypes = library.matigelo_back.argtypes[:4] + [ctypes.c_void_p, ctypes.c_size_t, ctypes.POINTER(ctypes.c_uint64 * 3)]
    return library


_LIBRARY = _library()


def answer(source: bytes, setting: int, room: int) -> tuple[tuple[int, int, int, int, int], bytes]:
    """The five numbers, and all bytes of an output of so much room."""
    output = ctypes.create_string_buffer(b"\xaa" * room, room) if room else None
    numbers = (ctypes.c_uint64 * 5)()
    _LIBRARY.matigelo_read(setting, source, len(source), output, room, ctypes.byref(numbers))
    return tuple(numbers), output.raw if output else b""


def image(source: bytes, setting: int = 0) -> Union[bytes, Refusal]:
    """The tree's image as README.md describes it."""
    numbers, output = answer(bytes(source), setting, IMAGE_FACTOR * min(len(source), LONGEST_SOURCE))
    return output[: numbers[4]] if numbers[0] == 0 else Refusal(*numbers[:4])


def read(source: bytes, setting: int = 0) -> Union[Tree, Refusal]:
    """The tree of a source under a setting, or why it has none."""
    read_image = image(source, setting)
    return read_image if isinstance(read_image, Refusal) else back(read_image)


def json_answer(text: bytes, room: int) -> tuple[tuple[int, int, int, int, int], bytes]:
    """The five numbers of a station's text, and all bytes of an output of so much room."""
    output = ctypes.create_string_buffer(b"\xaa" * room, room) if room else None
    numbers = (ctypes.c_uint64 * 5)()
    _LIBRARY.matigelo_json(text, len(text), output, room, ctypes.byref(numbers))
    return tuple(numbers), output.raw if output else b""


def json_image(text: bytes) -> Union[bytes, Refusal]:
    """The image of a station's text, JSON, as README.md describes it."""
    numbers, output = json_answer(bytes(text), IMAGE_FACTOR * min(len(text), LONGEST_SOURCE))
    return output[: numbers[4]] if numbers[0] == 0 else Refusal(*numbers[:4])


def json(text: bytes) -> Union[Tree, Refusal]:
    """The tree of a station's text, or why it has none."""
    read_image = json_image(text)
    return read_image if isinstance(read_image, Refusal) else back(read_image)


def _parts(payload: bytes, layout: str) -> dict[str, Any]:
    parts: dict[str, Any] = {}
    at = 0

    def number() -> int:
        nonlocal at
        at += 2
        return int.from_bytes(payload[at - 2 : at], "big")

    for part in layout.split():
        name, sort = part.split(":")
        if sort == "n":
            parts[name] = number()
        elif sort == "s":
            parts[name] = (number(), number())
        elif sort == "t":
            parts[name] = payload[at:].decode()
            at = len(payload)
        else:
            parts[name] = bool(payload[at]) if sort == "f" else payload[at]
            at += 1
    if at != len(payload):
        raise ValueError("a payload has another length than its parts")
    return parts


def links(read_image: bytes, room: int) -> tuple[tuple[int, int, int], list[int]]:
    """The three numbers, and an array of so many numbers as it is left: for each record its offset and the first record of its own tree."""
    array = (ctypes.c_size_t * room)()
    ctypes.memset(array, 0xAA, ctypes.sizeof(array))
    numbers = (ctypes.c_uint64 * 3)()
    _LIBRARY.matigelo_back(read_image, len(read_image), array, room, ctypes.byref(numbers))
    return tuple(numbers), list(array)


def back(read_image: bytes) -> Union[Tree, BadImage]:
    """An image as nested objects, or what is wrong with it."""
    read_image = bytes(read_image)
    (number, offset, count), found = links(read_image, len(read_image) // 3 * 2)
    if number != 0:
        return BadImage(number, offset)
    trees: list[Tree] = []
    for i in range(count):
        children = []
        end = i
        while end > found[2 * i + 1]:
            children.append(trees[end - 1])
            end = found[2 * (end - 1) + 1]
        trees.append(_record(read_image, found[2 * i], children[::-1]))
    return trees[-1]


def _record(read_image: bytes, at: int, children: list[Tree]) -> Tree:
    tag = read_image[at]
    end = at + 3 + int.from_bytes(read_image[at + 1 : at + 3], "big")
    name, layout = RECORDS[tag]
    if tag == INFIX and end == at + 4:  # from before it had a span
        layout = "operator:b"
    return Tree(tag, name, _parts(read_image[at + 3 : end], layout), children)


def listings(read_image: bytes, room: int) -> tuple[tuple[int, int, int], list[int]]:
    """The three numbers, and a list of so many numbers as it is left: four for each listing."""
    array = (ctypes.c_size_t * (len(read_image) // 3 * 2))()
    numbers_list = (ctypes.c_size_t * room)()
    ctypes.memset(numbers_list, 0xAA, ctypes.sizeof(numbers_list))
    numbers = (ctypes.c_uint64 * 3)()
    _LIBRARY.matigelo_mass(read_image, len(read_image), array, len(array), numbers_list, room, ctypes.byref(numbers))
    return tuple(numbers), list(numbers_list)


def mass(read_image: bytes) -> Union[list[Listing], BadImage]:
    """The planner's list: the objects that raise mass without depth, or depth without mass, or of which that is undecided."""
    read_image = bytes(read_image)
    numbers, _ = listings(read_image, 0)
    if numbers[0] == 21:
        numbers, found = listings(read_image, 4 * numbers[2])
        return [Listing(found[i], RAISES[found[i + 1]], (found[i + 2], found[i + 3])) for i in range(0, len(found), 4)]
    return [] if numbers[0] == 0 else BadImage(*numbers[:2])
