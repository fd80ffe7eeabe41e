"""Runs the commands of ./clkbench that README.md and docs/ show with their output, and compares.

A document shows a command with its output in one of these forms.

- A block of lines that begins with `$ ./clkbench`: the lines after it, up to the next such line, are
  its output.
- A command `./clkbench ... < FILE` in a sentence, or alone in a block: the blocks right after it are
  lines of its output, and so are the first cells of tables with the head `line`, `entry` or `answer`
  in the same chapter.
- A block that begins with a line `%bundle` and has arrows: ` -> ` stands before the answer of a command
  under `sim`.
- A table with the head `reason`, `when` and `example`: lines from line 2 on, with `;` for a line end,
  and in brackets the line that is refused.
- An answer after the name of its example on one line: `examples/uart.bundle`, `A.1 handle 0`.

Lines of a block follow one another in the output, but for `...`, which stands for any lines. Lines of a
table stand there in this order. FILE is a file of examples/, or the word FILE: the last block before it
that begins with a line `%bundle`. A bundle that the reader makes, as READERS says, isn't run.
"""

import glob
import os
import re
import subprocess
import sys

READERS = ("mps2.bundle", "copy.bundle")
COMMAND = re.compile(r"\./clkbench((?: [a-z0-9-]+)+) < ([\w./]+)")
OUTPUT_HEADS = ("line", "entry", "answer")
ANSWER = re.compile(r"[\w-]+\.\d+ .+")
failures = []
counts = {"outputs": 0, "commands in sentences": 0, "bundles with arrows": 0, "refusals": 0, "answers by themselves": 0}
outputs = {}


def fail(place, text):
    failures.append(f".ci/shown: {place}: {text}")


def run(words, bundle):
    """The status and the lines that the program prints for a bundle."""
    key = (words, bundle)
    if key not in outputs:
        done = subprocess.run(["./clkbench", *words.split()], input=bundle.encode(), stdout=subprocess.PIPE,
                              stderr=subprocess.DEVNULL, check=False)
        outputs[key] = (done.returncode, done.stdout.decode().split("\n")[:-1])
    return outputs[key]


def without_arrows(lines):
    return "".join(re.sub(r" *-> .*", "", line) + "\n" for line in lines)


def pieces(text):
    """The document as (line, kind, lines): headings, blocks, tables and other text."""
    lines = text.split("\n")
    at = 0
    while at < len(lines):
        begin = at
        if lines[at].startswith("```"):
            at += 1
            while at < len(lines) and not lines[at].startswith("```"):
                at += 1
            yield begin + 1, "block", lines[begin + 1:at]
            at += 1
        elif lines[at].startswith("#"):
            at += 1
            yield begin + 1, "heading", [lines[begin]]
        elif lines[at].startswith("|"):
            while at < len(lines) and lines[at].startswith("|"):
                at += 1
            yield begin + 1, "table", lines[begin:at]
        elif lines[at].strip():
            while at < len(lines) and lines[at].strip() and not re.match(r"```|#|\|", lines[at]):
                at += 1
            yield begin + 1, "text", lines[begin:at]
        else:
            at += 1


def cells(row):
    return [cell.strip() for cell in re.split(r"(?<!\\)\|", row)[1:-1]]


def is_part(shown, printed):
    """Whether the shown lines stand in the printed ones one after another, `...` standing for any."""
    groups, group = [], []
    for line in shown:
        if line == "...":
            groups.append(group)
            group = []
        else:
            group.append(line)
    groups.append(group)
    at = 0
    for group in groups:
        while at + len(group) <= len(printed) and printed[at:at + len(group)] != group:
            at += 1
        if at + len(group) > len(printed):
            return False
        at += len(group)
    return True


def first_missing(shown, printed):
    """The first of the shown lines that doesn't stand after the ones before it."""
    at = 0
    for line in shown:
        while at < len(printed) and printed[at] != line:
            at += 1
        if at == len(printed):
            return line
        at += 1
    return None


class Document:
    def __init__(self, path):
        self.path = path
        self.bundle = None  # the last block that is a bundle
        self.command = None  # (words, file) that the last sentence shows
        self.near = False  # whether nothing but its output stood since

    def place(self, line):
        return f"{self.path}:{line}"

    def printed(self, line, words, file):
        """The lines of a command that ends with status 0, or that refuses its bundle."""
        if file == "FILE":
            text = self.bundle
        elif os.path.exists(file):
            with open(file, encoding="utf-8") as opened:
                text = opened.read()
        else:
            text = None
        if text is None:
            fail(self.place(line), f"there is no {file}")
            return []
        status, lines = run(words.strip(), text)
        if status not in (0, 2) or (status == 2 and not (lines and lines[0].startswith("error: line "))):
            fail(self.place(line), f"./clkbench{words} < {file} ends with status {status}")
        return lines

    def compare_block(self, line, words, file, shown):
        counts["outputs"] += 1
        printed = self.printed(line, words, file)
        if not is_part(shown, printed):
            wrong = first_missing([l for l in shown if l != "..."], printed)
            fail(self.place(line), f"./clkbench{words} < {file} doesn't print these lines, as: {wrong}")

    def see_block(self, line, lines):
        if lines and lines[0].startswith("$ ./clkbench"):
            at = 0
            while at < len(lines):
                match = COMMAND.fullmatch(lines[at][2:])
                end = at + 1
                while end < len(lines) and not lines[end].startswith("$ "):
                    end += 1
                if match:
                    self.compare_block(line + at + 1, match[1], match[2], lines[at + 1:end])
                else:
                    fail(self.place(line + at + 1), "this is no command that can be run")
                at = end
            return
        if lines and lines[0].startswith("%bundle "):
            self.bundle = without_arrows(lines)
            if any(" -> " in l for l in lines):
                self.compare_arrows(line, lines)
            return
        match = COMMAND.fullmatch(lines[0]) if lines else None
        if match:
            self.see_command(line, match[1], match[2])
        elif self.command and self.near:
            self.compare_block(line, *self.command, lines)

    def see_command(self, line, words, file):
        self.near = True
        if file in READERS:
            self.command = None
            return
        self.command = (words, file)
        counts["commands in sentences"] += 1
        if file != "FILE" or self.bundle:
            self.printed(line, words, file)

    def compare_arrows(self, line, lines):
        counts["bundles with arrows"] += 1
        _, printed = run("sim", self.bundle)
        driver, number = None, 0
        for at, text in enumerate(lines):
            words = text.split()
            if text.startswith("%"):
                driver, number = (words[1] if words[0] == "%driver" else None), 0
            elif driver and words and not words[0].startswith("#"):
                number += 1
                if " -> " in text:
                    shown = f"{driver}.{number} {text.split(' -> ')[1].strip()}"
                    if shown not in printed:
                        came = [l for l in printed if l.startswith(f"{driver}.{number} ")] or printed[:1]
                        fail(self.place(line + at + 1), f"{shown}, and not {''.join(came)}, is shown")

    def see_table(self, line, rows):
        head = cells(rows[0])
        if head[:3] == ["reason", "when", "example"]:
            for at, row in enumerate(rows[2:]):
                self.compare_refusal(line + at + 2, cells(row))
        elif head[0] in OUTPUT_HEADS and self.command:
            counts["outputs"] += 1
            shown = [m[1] for m in (re.match(r"`([^`]+)`", cells(row)[0]) for row in rows[2:]) if m]
            wrong = first_missing(shown, self.printed(line, *self.command))
            if wrong is not None:
                fail(self.place(line), f"./clkbench{self.command[0]} < {self.command[1]} doesn't print: {wrong}")

    def compare_refusal(self, line, row):
        reason = re.match(r"`(\w+)`", row[0])
        example = re.fullmatch(r"`([^`]+)` \((\d+)\)", row[2])
        if not (reason and example):
            return
        counts["refusals"] += 1
        lines = ["%bundle 1"] + re.split(r"; ?", example[1])
        _, printed = run("check", "\n".join(lines))
        if printed != [f"error: line {example[2]}: {reason[1]}"]:
            fail(self.place(line), f"{example[1]} prints: {' '.join(printed[:1])}")

    def see_answers(self, line, text):
        """The answers that stand after the name of an example."""
        example = None
        for span in re.findall(r"`([^`]+)`", text):
            if re.fullmatch(r"examples/[\w.]+", span):
                example = span
            elif example and ANSWER.fullmatch(span):
                counts["answers by themselves"] += 1
                if span not in self.printed(line, "sim", example):
                    fail(self.place(line), f"./clkbench sim < {example} doesn't print: {span}")

    def see(self):
        with open(self.path, encoding="utf-8") as opened:
            text = opened.read()
        for line, kind, lines in pieces(text):
            if kind in ("table", "text"):
                for at, one in enumerate(lines):
                    self.see_answers(line + at, one)
            if kind == "heading":
                if lines[0].startswith("## "):
                    self.command = None
                self.near = False
            elif kind == "block":
                self.see_block(line, lines)
            elif kind == "table":
                self.see_table(line, lines)
            else:
                self.near = lines[-1].rstrip(":").endswith(" prints")
                for match in COMMAND.finditer(" ".join(lines)):
                    self.see_command(line, match[1], match[2])


def main():
    paths = ["README.md"] + sorted(glob.glob("docs/*.md"))
    texts = ""
    for path in paths:
        Document(path).see()
        with open(path, encoding="utf-8") as opened:
            texts += opened.read()
    for example in sorted(glob.glob("examples/*.bundle")):
        if example not in texts:
            fail(example, "no document names it")
    for text in failures:
        print(text, file=sys.stderr)
    said = ", ".join(f"{n} {what}" for what, n in counts.items())
    if not failures:
        print(f".ci/shown: the documents show what the program prints ({said})")
    return 1 if failures else 0


sys.exit(main())
