"""Tests of tools/board: a blob that is made here byte by byte, a source by dtc, and what clkbench says of the bundles."""

import os
import shutil
import struct
import subprocess
import sys
import tempfile
import unittest

ROOT = os.path.dirname(os.path.dirname(os.path.dirname(os.path.realpath(__file__))))
BOARD = os.path.join(ROOT, "tools", "board")


def cells(*numbers):
    return struct.pack(f">{len(numbers)}I", *numbers)


def text(*strings):
    return b"".join(it.encode() + b"\0" for it in strings)


def padded(data):
    return data + b"\0" * (-len(data) % 4)


def blob(root):
    """A blob of nested (name, properties, children)."""
    names = {}
    strings = b""

    def node(it):
        nonlocal strings
        name, properties, children = it
        made = cells(1) + padded(name.encode() + b"\0")
        for key, value in properties.items():
            if key not in names:
                names[key] = len(strings)
                strings += key.encode() + b"\0"
            made += cells(3, len(value), names[key]) + padded(value)
        return made + b"".join(node(child) for child in children) + cells(2)

    structure = node(root) + cells(9)
    at = 40 + 16
    size = at + len(structure) + len(strings)
    head = cells(0xD00DFEED, size, at, at + len(structure), 40, 17, 16, 0, len(strings), len(structure))
    return head + bytes(16) + structure + strings


OSC = ("osc@0", {"compatible": text("fixed-clock"), "#clock-cells": cells(0), "clock-frequency": cells(24000000), "phandle": cells(1)}, [])
UNKNOWN = ("pll@1", {"compatible": text("acme,pll", "acme,clk"), "#clock-cells": cells(1), "phandle": cells(2)}, [])
HALF = (
    "half",
    {
        "compatible": text("fixed-factor-clock"), "#clock-cells": cells(0), "clocks": cells(2, 7), "clock-mult": cells(1),
        "clock-div": cells(2), "phandle": cells(3),
    },
    [],
)
UART = (
    "uart",
    {"compatible": text("acme,uart"), "clocks": cells(2, 5, 1, 3), "clock-names": text("bus", "baud", "half"), "local-mac-address": bytes([0, 0x11, 0x22])},
    [],
)


class BoardTest(unittest.TestCase):
    def setUp(self):
        self.folder = tempfile.mkdtemp()
        self.addCleanup(shutil.rmtree, self.folder)

    def write(self, name, data):
        file = os.path.join(self.folder, name)
        with open(file, "wb") as it:
            it.write(data)
        return file

    def board(self, *words):
        return subprocess.run([sys.executable, "-B", BOARD, *words], capture_output=True, text=True, check=False)

    def check(self, bundle):
        ran = subprocess.run([os.path.join(ROOT, "clkbench"), "check"], input=bundle, capture_output=True, text=True, check=False)
        return ran.returncode, ran.stdout

    def test_a_tree_of_known_clocks_is_kept_whole(self):
        gate = ("gate", {"compatible": text("bank,gate-clock"), "#clock-cells": cells(0), "clocks": cells(1), "bank,reg": cells(3), "bank,bit": cells(5)}, [])
        ran = self.board(self.write("b.dtb", blob(("", {"model": text("a", "b")}, [OSC, gate]))))
        self.assertEqual(ran.returncode, 0, ran.stderr)
        self.assertIn('\tmodel = "a", "b";\n', ran.stdout)
        self.assertTrue(ran.stdout.endswith("%regs 4\n"))
        status, said = self.check(ran.stdout)
        self.assertEqual(status, 0, said)
        self.assertEqual(said.splitlines()[:2], ["boot.1 ok", "boot.2 ok"])

    def test_each_thing_in_the_way_is_told_and_nothing_is_left_out(self):
        file = self.write("b.dtb", blob(("", {}, [OSC, UNKNOWN, HALF, UART])))
        ran = self.board(file)
        self.assertEqual(ran.returncode, 1)
        told = ran.stderr.splitlines()
        self.assertTrue(told[0].startswith(f"{file}: /pll@1: compatible acme,pll, acme,clk: compatible: UnknownCompatible"), told)
        self.assertTrue(told[1].startswith(f"{file}: /half: compatible fixed-factor-clock: clocks: BadSpecifier"), told)
        self.assertIn("\t\tclocks = <2 5 1 3>;\n", ran.stdout)
        self.assertEqual(self.check(ran.stdout), (2, f"error: line {ran.stdout.splitlines().index(chr(9) + 'pll@1 {') + 1}: UnknownCompatible\n"))

    def test_with_keep_going_what_refers_to_it_goes_too(self):
        ran = self.board("--keep-going", self.write("b.dtb", blob(("", {}, [OSC, UNKNOWN, HALF, UART]))))
        self.assertEqual(ran.returncode, 0, ran.stderr)
        self.assertIn("\t\tclocks = <0 1 0>;\n", ran.stdout)
        self.assertIn("\t\tlocal-mac-address = [00 11 22];\n", ran.stdout)
        self.assertTrue(ran.stderr.splitlines()[-1].endswith("1 clocks kept (1 fixed), 3 that something refers to dropped, 3 things in the way"), ran.stderr)
        status, said = self.check(ran.stdout + "%driver A /uart\nget a baud\nrate a\nget b bus\n")
        self.assertEqual((status, said.splitlines()[0]), (0, "boot.1 ok"))

    def test_a_name_that_is_taken_is_mended(self):
        other = ("osc@1", {**OSC[1], "phandle": cells(9), "clock-frequency": cells(32768)}, [])
        ran = self.board("--keep-going", self.write("b.dtb", blob(("", {}, [OSC, other]))))
        self.assertEqual(ran.returncode, 0, ran.stderr)
        self.assertIn('\t\tclock-output-names = "osc-2";\n', ran.stdout)
        self.assertIn("osc-2", self.check(ran.stdout)[1])

    def test_what_isnt_a_tree_is_told(self):
        broken = blob(("", {}, [OSC]))[:-60]
        ran = self.board(self.write("b.dtb", broken))
        self.assertEqual((ran.returncode, ran.stdout), (2, ""))
        self.assertIn("b.dtb: it ends after", ran.stderr)
        ran = self.board(os.path.join(self.folder, "nothing.dtb"))
        self.assertEqual((ran.returncode, ran.stdout), (2, ""))
        self.assertIn("nothing.dtb: No such file", ran.stderr)

    @unittest.skipUnless(shutil.which("dtc"), "dtc isn't there")
    def test_a_source_goes_through_dtc(self):
        file = self.write("b.dts", b'/dts-v1/;\n/ { o: osc { compatible = "fixed-clock"; #clock-cells = <0>; clock-frequency = <(3 * 8)>; };\n};\n&o { bits = /bits/ 8 <1 2>; };\n')
        ran = self.board(file)
        self.assertEqual(ran.returncode, 0, ran.stderr)
        self.assertIn("\t\tclock-frequency = <0x18>;\n", ran.stdout)
        self.assertIn("\t\tbits = [01 02];\n", ran.stdout)
        ran = self.board(self.write("bad.dts", b"/dts-v1/;\n/ { p = ; };\n"))
        self.assertEqual((ran.returncode, ran.stdout), (2, ""))


if __name__ == "__main__":
    unittest.main()
