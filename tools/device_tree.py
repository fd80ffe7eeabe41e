"""A flattened device tree: read from a blob, and written as a source that clkbench reads."""

import re
import struct

MAGIC = 0xD00DFEED
BEGIN_NODE, END_NODE, PROPERTY, NOP, END = 1, 2, 3, 4, 9

# The properties that the bindings read as cells, whatever their bytes look like.
CELLS = {
    "#clock-cells", "assigned-clock-parents", "assigned-clock-rates", "assigned-clocks", "clock-div",
    "clock-frequency", "clock-indices", "clock-mult", "clocks", "phandle",
}
# The properties that the bindings read as strings.
STRINGS = {"clock-names", "clock-output-names", "compatible", "status"}

NAME = re.compile(r"[A-Za-z0-9,._+\-?#]+\Z")
NODE_NAME = re.compile(r"[A-Za-z0-9,._+\-?#]+(@[A-Za-z0-9,._+\-?#]+)?\Z")
MOST_LEVELS = 64


class Fault(Exception):
    """Why a blob can't be read."""


class Node:
    """A node: its name with the unit address, its properties as bytes, and its children."""

    def __init__(self, name, parent):
        self.name = name
        self.parent = parent
        self.properties = {}
        self.children = []

    def path(self):
        if self.parent is None:
            return "/"
        above = self.parent.path()
        return above + self.name if above == "/" else f"{above}/{self.name}"

    def level(self):
        return 1 if self.parent is None else self.parent.level() + 1

    def walk(self):
        """The node and all below it, in the order of the source."""
        yield self
        for child in self.children:
            yield from child.walk()

    def cells(self, name):
        """The cells of a property, or None if it isn't there or isn't made of cells."""
        value = self.properties.get(name)
        if value is None or len(value) % 4:
            return None
        return list(struct.unpack(f">{len(value) // 4}I", value))

    def set_cells(self, name, cells):
        self.properties[name] = struct.pack(f">{len(cells)}I", *cells)

    def strings(self, name):
        """The strings of a property, or None if it isn't there or isn't made of strings."""
        value = self.properties.get(name)
        return None if value is None else strings_of(value)

    def set_strings(self, name, strings):
        self.properties[name] = b"".join(it.encode() + b"\0" for it in strings)


def strings_of(value):
    """The strings that these bytes are, or None. A quote, a backslash and a control character aren't text here."""
    if not value.endswith(b"\0"):
        return None
    try:
        text = value[:-1].decode("utf-8")
    except UnicodeDecodeError:
        return None
    strings = text.split("\0")
    if any(not it.isprintable() or '"' in it or "\\" in it for it in strings):
        return None
    return strings


def read_blob(data):
    """The root of a blob."""
    if len(data) < 40:
        raise Fault("it is too short for a device tree blob")
    magic, size, at, names = struct.unpack(">4I", data[:16])
    if magic != MAGIC:
        raise Fault("it isn't a device tree blob: its first word isn't 0xd00dfeed")
    if size > len(data):
        raise Fault(f"it ends after {len(data)} bytes, and its header says {size}")
    try:
        return read_nodes(data, at, names)
    except (struct.error, ValueError, UnicodeDecodeError, IndexError) as error:
        raise Fault(f"its structure is broken: {error}") from error


def read_nodes(data, at, names):
    root = here = None
    while True:
        (token,) = struct.unpack_from(">I", data, at)
        at += 4
        if token == BEGIN_NODE:
            end = data.index(b"\0", at)
            node = Node(data[at:end].decode("ascii"), here)
            if here is not None:
                here.children.append(node)
            elif root is None:
                root = node
            else:
                raise ValueError("there are two roots")
            here = node
            at = aligned(end + 1)
        elif token == PROPERTY:
            length, name_at = struct.unpack_from(">2I", data, at)
            at += 8
            if at + length > len(data):
                raise ValueError("a property goes beyond the end")
            start = names + name_at
            name = data[start : data.index(b"\0", start)].decode("ascii")
            here.properties[name] = data[at : at + length]
            at = aligned(at + length)
        elif token == END_NODE:
            here = here.parent
        elif token == END:
            if here is not None or root is None:
                raise ValueError("a node isn't closed")
            return root
        elif token != NOP:
            raise ValueError(f"there is a token {token}")


def aligned(at):
    return (at + 3) // 4 * 4


def value_text(name, value):
    """How a value is written: as what the bindings read it as, else as text if it looks like text, else as cells or bytes."""
    strings = strings_of(value)
    is_read_as_cells = name in CELLS or name.startswith("bank,")
    looks_like_text = strings is not None and all(strings)
    if strings is not None and (name in STRINGS or looks_like_text and not is_read_as_cells):
        return ", ".join(f'"{it}"' for it in strings)
    if len(value) % 4 == 0:
        cells = struct.unpack(f">{len(value) // 4}I", value)
        return "<" + " ".join(f"{it:#x}" if it > 9 else str(it) for it in cells) + ">"
    return "[" + " ".join(f"{it:02x}" for it in value) + "]"


def source_lines(node, level=0):
    """The lines of a node in the source."""
    indent = "\t" * level
    yield f"{indent}{node.name or '/'} {{"
    for name, value in node.properties.items():
        if value:
            yield f"{indent}\t{name} = {value_text(name, value)};"
        else:
            yield f"{indent}\t{name};"
    for child in node.children:
        yield from source_lines(child, level + 1)
    yield f"{indent}}};"


def source(root):
    """The whole source."""
    return "\n".join(["/dts-v1/;", "", *source_lines(root), ""])
