"""A copy of /sys/kernel/debug/clk: the table clk_summary, and the files of each clock, if they are there."""

import os
import re

# The name stands three columns further right for each level. Before Linux 4.x there was no protect count.
ROW = re.compile(r"^( *)(\S.*?) +(\d+) +(\d+) +(\d+) +(\d+) +(\d+) +(-----|-?\d+)(?: +(\d+))?(?: +([YN?]))?(?: +.*)?$")
INDENT = 3


class Fault(Exception):
    """Why a copy can't be read, with its file and line."""


class Clock:
    """A clock of the copy: its name, rate in Hz, parent, and whether it was running."""

    def __init__(self, name, rate, parent, is_on):
        self.name, self.rate, self.parent, self.is_on = name, rate, parent, is_on
        self.possible_parents = [parent.name] if parent else []
        self.flags = []


def read_copy(folder):
    """The clocks of a copy, each after its parent."""
    file = os.path.join(folder, "clk_summary")
    clocks = read_summary(file)
    for clock in clocks:
        read_files(os.path.join(folder, clock.name), clock)
    return clocks


def read_summary(file):
    """The clocks of the table."""
    try:
        with open(file, encoding="utf-8") as it:
            lines = it.read().splitlines()
    except (OSError, UnicodeDecodeError) as error:
        raise Fault(f"{file}: {getattr(error, 'strerror', None) or error}") from error
    begin = next((k for k, line in enumerate(lines) if line.startswith("---")), None)
    if begin is None:
        raise Fault(f"{file}: there is no line of dashes below the heads of the columns")
    clocks, above, names = [], [], set()
    for number, line in enumerate(lines[begin + 1 :], begin + 2):
        if not line.strip():
            continue
        clock, level = read_row(f"{file}:{number}", line, above)
        if clock is None:
            continue
        if clock.name in names:
            raise Fault(f"{file}:{number}: {clock.name} stands in the table a second time")
        names.add(clock.name)
        clocks.append(clock)
        above[level:] = [clock]
    return clocks


def read_row(place, line, above):
    """The clock of a row and its level; the clocks above it are known. None for a further user of a clock."""
    found = ROW.match(line)
    if found is None:
        raise Fault(f"{place}: this is no row of clk_summary")
    level = (len(found[1]) - 1) // INDENT if found[1] else 0
    if level > len(above):
        raise Fault(f"{place}: its parent isn't above it")
    enabled, hardware = int(found[3]), found[10]
    is_on = hardware == "Y" if hardware in ("Y", "N") else enabled > 0
    parent = above[level - 1] if level else None
    return Clock(found[2], int(found[6]), parent, is_on), level


def read_files(folder, clock):
    """What a clock's own files say of its parents and flags. A file that isn't there says nothing."""
    possible = read_words(os.path.join(folder, "clk_possible_parents"))
    parent = read_words(os.path.join(folder, "clk_parent"))
    if possible:
        clock.possible_parents = possible
    if clock.parent and parent and parent != [clock.parent.name]:
        raise Fault(f"{folder}/clk_parent: it says {' '.join(parent)}, and the table says {clock.parent.name}")
    clock.flags = read_words(os.path.join(folder, "clk_flags"))


def read_words(file):
    if not os.path.isfile(file):
        return []
    with open(file, encoding="utf-8") as it:
        return it.read().split()
