"""Tests of tools/debugfs: a copy that is written here after Linux's format, and the rates that clkbench prints for its bundle."""

import os
import shutil
import subprocess
import sys
import tempfile
import unittest

ROOT = os.path.dirname(os.path.dirname(os.path.dirname(os.path.realpath(__file__))))
DEBUGFS = os.path.join(ROOT, "tools", "debugfs")
HEAD = """\
                                 enable  prepare  protect                                duty  hardware
   clock                          count    count    count        rate   accuracy phase  cycle    enable
-------------------------------------------------------------------------------------------------------
"""
# Each clock with its level and rate in Hz, and whether the table says that it is on.
CLOCKS = [
    ("osc24M", 0, 24000000, "Y"),
    ("pll-periph", 1, 600000000, "Y"),
    ("ahb1", 2, 200000000, "Y"),
    ("bus-uart0", 3, 200000000, "Y"),
    ("bus-uart1", 3, 200000000, "N"),
    ("pll-audio", 1, 22579200, "?"),
    ("cpu", 1, 12000000, "Y"),
    ("osc32k", 0, 32768, "Y"),
    ("rtc", 1, 32000, "Y"),
    ("third", 1, 10923, "Y"),
    ("ext", 0, 0, "Y"),
    ("ext_gate", 1, 0, "N"),
]


def row(name, level, rate, is_on):
    return f"{'':{level * 3 + 1}}{name:<{30 - level * 3}} {0:7d} {0:8d} {0:8d} {rate:11d} {0:10d} {0:5d} {50000:6d} {is_on:>9}\n"


class DebugfsTest(unittest.TestCase):
    def setUp(self):
        self.folder = tempfile.mkdtemp()
        self.addCleanup(shutil.rmtree, self.folder)

    def write(self, name, data):
        file = os.path.join(self.folder, name)
        os.makedirs(os.path.dirname(file), exist_ok=True)
        with open(file, "w", encoding="utf-8") as it:
            it.write(data)

    def debugfs(self):
        return subprocess.run([sys.executable, "-B", DEBUGFS, self.folder], capture_output=True, text=True, check=False)

    def summary(self, bundle):
        """The rate and the last column of each clock, by its name."""
        ran = subprocess.run([os.path.join(ROOT, "clkbench"), "check"], input=bundle, capture_output=True, text=True, check=False)
        self.assertEqual(ran.returncode, 0, ran.stdout)
        rows = [it.split() for it in ran.stdout.splitlines() if not it.startswith(("boot.", "clock ", "reg "))]
        return {it[0]: (int(it[4]), it[5]) for it in rows}

    def test_rates_are_those_of_the_copy(self):
        self.write("clk_summary", HEAD + "".join(row(*it) for it in CLOCKS))
        self.write("cpu/clk_possible_parents", "osc32k osc24M pll-periph cpu nowhere\n")
        self.write("cpu/clk_parent", "osc24M\n")
        self.write("ahb1/clk_flags", "CLK_SET_RATE_PARENT\nCLK_IS_CRITICAL\nCLK_GET_RATE_NOCACHE\n")
        ran = self.debugfs()
        self.assertEqual(ran.returncode, 0, ran.stderr)
        found = self.summary(ran.stdout)
        self.assertEqual({it[0]: it[2] for it in CLOCKS}, {name: found[name][0] for name in found if name != "cpu:mux"})
        self.assertEqual((found["bus-uart0"][1], found["bus-uart1"][1]), ("on", "off"))
        self.assertIn("divider ahb1 pll-periph 0 0 2 set-rate-parent critical\n", ran.stdout)
        self.assertIn("mux cpu:mux 0 4 2 3 osc32k osc24M pll-periph\n", ran.stdout)

    def test_possible_parents_make_no_cycle(self):
        self.write("clk_summary", HEAD + row("osc", 0, 5, "Y") + row("a", 1, 5, "Y") + row("b", 1, 5, "Y"))
        self.write("a/clk_possible_parents", "osc b\n")
        self.write("b/clk_possible_parents", "a osc\n")
        ran = self.debugfs()
        self.assertEqual(ran.returncode, 0, ran.stderr)
        self.assertEqual({name: it[0] for name, it in self.summary(ran.stdout).items()}, {"osc": 5, "a": 5, "b": 5})

    def test_a_rate_that_no_ratio_gives_is_told(self):
        self.write("clk_summary", HEAD + row("dead", 0, 0, "Y") + row("ghost", 1, 48000, "Y"))
        ran = self.debugfs()
        self.assertEqual(ran.returncode, 1)
        self.assertIn("ghost: no ratio of 32 bits gives 48000 of 0", ran.stderr)
        self.assertEqual(self.summary(ran.stdout)["ghost"][0], 48000)

    def test_faults_have_a_file_and_a_line(self):
        self.write("clk_summary", HEAD + row("osc", 0, 5, "Y") + "    what is this\n")
        ran = self.debugfs()
        self.assertEqual((ran.returncode, ran.stdout), (2, ""))
        self.assertIn("clk_summary:5: this is no row", ran.stderr)
        self.write("clk_summary", HEAD + row("osc", 0, 5, "Y") + row("osc", 0, 5, "Y"))
        self.assertIn("clk_summary:5: osc stands in the table a second time", self.debugfs().stderr)
        os.remove(os.path.join(self.folder, "clk_summary"))
        self.assertIn("clk_summary: No such file", self.debugfs().stderr)


if __name__ == "__main__":
    unittest.main()
