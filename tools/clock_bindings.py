"""What of a device tree clkbench reads as clocks, and what stands in the way: the rules of docs/DEVICE_TREE.md."""

import re

import device_tree

# The compatible strings of providers, with how many cells a specifier has.
PROVIDERS = {
    "fixed-clock": 0,
    "fixed-factor-clock": 0,
    "bank,gate-clock": 0,
    "bank,gates-clock": 1,
    "bank,mux-clock": 0,
    "bank,divider-clock": 0,
    "bank,pll-clock": 0,
}
# The properties that each provider needs: each is so many cells, or any number if None.
NEEDED = {
    "fixed-clock": {"clock-frequency": 1},
    "fixed-factor-clock": {"clocks": None, "clock-mult": 1, "clock-div": 1},
    "bank,gate-clock": {"clocks": None, "bank,reg": 1, "bank,bit": 1},
    "bank,gates-clock": {"clocks": None, "bank,reg": 1},
    "bank,mux-clock": {"clocks": None, "bank,reg": 1, "bank,shift": 1, "bank,width": 1},
    "bank,divider-clock": {"clocks": None, "bank,reg": 1, "bank,shift": 1, "bank,width": 1},
    "bank,pll-clock": {
        "clocks": None, "bank,reg": 1, "bank,shift": 1, "bank,width": 1, "bank,power": 2, "bank,n-range": 2, "bank,m": 1,
    },
}
ASSIGNED = ("assigned-clocks", "assigned-clock-parents", "assigned-clock-rates")
CLOCK_NAME = re.compile(r"[!-~]{1,64}\Z")


class Obstacle:
    """What stands in the way of a node: the reason, the property it is about, and more of it in words."""

    def __init__(self, node, reason, name, words):
        self.node, self.reason, self.name, self.words = node, reason, name, words

    def __str__(self):
        compatible = ", ".join(self.node.strings("compatible") or []) or "none"
        return f"{self.node.path()}: compatible {compatible}: {self.name}: {self.reason}, {self.words}"


class Provider:
    """A node that describes clocks: which row of the table decides, its clocks' names, and the cells of a specifier."""

    def __init__(self, node, row):
        self.node, self.row = node, row
        self.cells = PROVIDERS[row]
        self.names = clock_names(node, row)

    def identifiers(self):
        """What a specifier's cell may be, or None if a specifier has no cell."""
        if not self.cells:
            return None
        return self.node.cells("clock-indices") or list(range(len(self.names)))

    def cells_of_clocks(self):
        """The cells that stand for each clock in a specifier."""
        return [()] if not self.cells else [(it,) for it in self.identifiers()]


def is_passed_over(node):
    """Whether a node's status says that it isn't there."""
    return "status" in node.properties and node.strings("status") not in (["okay"], ["ok"])


def active_nodes(node):
    """The nodes that are read, in the order of the source."""
    if is_passed_over(node):
        return
    yield node
    for child in node.children:
        yield from active_nodes(child)


def is_provider(node):
    return "#clock-cells" in node.properties


def row_of(node):
    """The row of the table that decides for a provider, or None."""
    return next((it for it in node.strings("compatible") or [] if it in PROVIDERS), None)


def clock_names(node, row):
    """The names of a provider's clocks, or None if they aren't strings."""
    if "clock-output-names" in node.properties:
        names = node.strings("clock-output-names")
        return names if row == "bank,gates-clock" or names is None or len(names) == 1 else None
    return None if row == "bank,gates-clock" else [node.name.split("@")[0]]


def fault_of_provider(node, taken):
    """The first obstacle of a provider by itself, or None; the names of the clocks before it are taken."""
    row = row_of(node)
    if row is None:
        return Obstacle(node, "UnknownCompatible", "compatible", "no kind of clock that this program knows")
    if node.cells("#clock-cells") != [PROVIDERS[row]]:
        return Obstacle(node, "NoCells", "#clock-cells", f"{row} has {PROVIDERS[row]} here")
    for name, count in NEEDED[row].items():
        cells = node.cells(name)
        if cells is None or (len(cells) != count if count else not cells):
            what = "isn't there" if name not in node.properties else "hasn't its form"
            return Obstacle(node, "MissingProperty", name, what)
    names = clock_names(node, row)
    if names is None or row == "bank,gates-clock" and not is_well_indexed(node, names):
        return Obstacle(node, "MissingProperty", "clock-output-names", "hasn't its form")
    for name in names:
        if not CLOCK_NAME.match(name):
            return Obstacle(node, "BadName", "clock-output-names", f"{name!r} is no name of 1 to 64 characters without blanks")
        if name in taken:
            return Obstacle(node, "TwiceNamed", "clock-output-names", f"an earlier clock has the name {name}")
    return None


def is_well_indexed(node, names):
    """Whether the indices of a provider of gates are as many as its names."""
    indices = node.cells("clock-indices")
    return "clock-indices" not in node.properties or indices is not None and len(indices) == len(names)


class Specifiers:
    """A property that names clocks, cut into specifiers: each a phandle with its cells. A null is a phandle 0 alone."""

    def __init__(self, cells, cells_of):
        self.found = []
        at = 0
        self.is_whole = True
        while at < len(cells):
            count = cells_of(cells[at]) if cells[at] else 0
            if count is None or at + 1 + count > len(cells):
                self.is_whole = False
                return
            self.found.append(tuple(cells[at : at + 1 + count]))
            at += 1 + count


class Clocks:
    """The providers of a tree by their phandles, as they are known so far."""

    def __init__(self, root):
        self.root = root
        # What each phandle is of, in the whole tree: a reference may lead to a node that isn't read.
        self.owners = {}
        for node in root.walk():
            for cell in node.cells("phandle") or []:
                self.owners.setdefault(cell, node)
        self.providers = {}

    def add(self, provider):
        self.providers[provider.node] = provider

    def remove(self, provider):
        del self.providers[provider.node]

    def cells_of(self, phandle):
        """How many cells follow this phandle in the source, also if its node is no provider here, or None."""
        owner = self.owners.get(phandle)
        cells = None if owner is None else owner.cells("#clock-cells") or owner.old_cells
        return None if not cells else cells[0]

    def specifiers(self, node, name):
        return Specifiers(node.cells(name) or [], self.cells_of)

    def means_clock(self, specifier):
        """Whether a specifier names a clock that is there."""
        provider = self.providers.get(self.owners.get(specifier[0]))
        if provider is None or len(specifier) != provider.cells + 1:
            return False
        return not provider.cells or specifier[1] in provider.identifiers()


def fault_of_reference(clocks, provider):
    """The first obstacle of what a provider's `clocks` names, or None."""
    node = provider.node
    if provider.row == "fixed-clock":
        return None
    specifiers = clocks.specifiers(node, "clocks")
    bad = next((it for it in specifiers.found if not clocks.means_clock(it)), None)
    if bad is not None or not specifiers.is_whole:
        owner = clocks.owners.get(bad[0]) if bad else None
        whom = owner.path() if owner is not None else "no node"
        return Obstacle(node, "BadSpecifier", "clocks", f"it names {whom}, which is no clock here")
    if provider.row != "bank,mux-clock" and len(specifiers.found) != 1:
        return Obstacle(node, "MissingProperty", "clocks", f"it names {len(specifiers.found)} clocks, and not one")
    return None


device_tree.Node.old_cells = None
