# What tools/compare, tools/compare-face, tools/compare-reader, tools/compare-search, tools/outside, tools/mutants and
# tools/oracle/sample share: building a judge, making lists, running programs, comparing what both write.
import argparse
import collections
import concurrent.futures
import os
import re
import shutil
import subprocess
import sys
import textwrap
import time

TOP = os.path.dirname(os.path.dirname(os.path.dirname(os.path.abspath(__file__))))
ORACLE = os.path.join(TOP, "tools", "oracle")
# The lines that begin the sample in the program's own stdin; tools/oracle/sample writes it.
SAMPLE = b"quiet\n# The sample that tools/oracle/sample wrote, by: "
# Seconds after which a program is stopped.
PATIENCE = 300


class Trouble(Exception):
    """What ends the run, with the exit status."""

    def __init__(self, status, text):
        super().__init__(text)
        self.status = status


def run(command, given=b"", name=None):
    """Runs a command on some input: its output, or trouble."""
    name = name or os.path.basename(command[0])
    try:
        done = subprocess.run(command, input=given, stdout=subprocess.PIPE, stderr=subprocess.PIPE, timeout=PATIENCE)
    except subprocess.TimeoutExpired:
        raise Trouble(1, f"{name} has not ended after {PATIENCE} s") from None
    if done.returncode != 0:
        said = done.stderr.decode("utf-8", "replace").strip().split("\n")[-1]
        raise Trouble(3 if done.returncode == 3 else 1, f"{name} ended with status {done.returncode}: {said}")
    return done.stdout


def kit():
    """The folder of the Rattle kit, or nothing."""
    rt = shutil.which("rt")
    return os.environ.get("RATTLE_HOME") or (rt and os.path.dirname(os.path.dirname(os.path.realpath(rt))))


def place(name):
    """Where `rt ci` and `rt run` put a built program, from the top of the repository."""
    return os.path.join("crates", name, "out", name)


def program_of(name):
    """The file of a built program."""
    return os.path.join(TOP, place(name))


def must_be_there(path, name):
    """Trouble if a program is not a file that can be run."""
    if not os.path.isfile(path) or not os.access(path, os.X_OK):
        raise Trouble(3, f"{path} is not there (rt ci makes it, and so does rt run in crates/{name})")


def runner(program):
    """How a program is run: with the kit's C library, where the kit is there."""
    tools = os.path.join(kit() or "", "toolchain")
    loader = os.path.join(tools, "lib", "ld-linux-x86-64.so.2")
    with open(program, "rb") as f:
        if f.read(4) != b"\x7fELF" or not os.path.exists(loader):
            return [program]
    return [loader, "--library-path", os.path.join(tools, "lib"), program]


def built(folder, judge="oracle", what="the judge"):
    """A judge, or another program of tools/oracle/build, built into a folder."""
    done = subprocess.run([os.path.join(ORACLE, "build"), folder, judge], stderr=subprocess.PIPE, text=True)
    if done.returncode == 3:
        raise Trouble(3, done.stderr.strip().removeprefix("tools/oracle/build: not built: "))
    if done.returncode != 0:
        raise Trouble(1, what + " cannot be built:\n" + done.stderr.strip())
    return os.path.join(folder, judge)


class Kind:
    """A program that runs lists, its judge, and the tool that compares them: the lists made whole, those made in parts, which lines of a list write a line, and how many random lists are usual."""

    def __init__(self, program, judge, tool, whole, in_parts, told, seeds):
        self.program, self.judge, self.tool, self.whole, self.in_parts, self.told, self.seeds = program, judge, tool, whole, in_parts, told, seeds

    def lists(self, judge, seeds, short):
        """The lists by name: how each is generated."""
        for name in self.whole if short else ():
            yield name, [judge, "gen", name]
        for name in self.in_parts if short else ():
            part = 0
            while run([judge, "gen", name, str(part)]):
                yield f"{name}-{part}", [judge, "gen", name, str(part)]
                part += 1
        for seed in seeds:
            yield f"seed-{seed}", [judge, "gen", str(seed)]

    def first_difference(self, name, given, expected, found):
        """Where two outputs first differ, with the line of the list that they tell of."""
        want, got = expected.split(b"\n"), found.split(b"\n")
        k = next((k for k, (a, b) in enumerate(zip(want, got)) if a != b), min(len(want), len(got)))
        told = [(n, line) for n, line in enumerate(given.split(b"\n"), 1) if re.match(self.told, line)]
        number, line = told[k] if k < len(told) else (0, b"the end of the list")
        show = lambda lines: lines[k].decode("ascii", "replace")[:400] if k < len(lines) else "nothing"
        return (f"list {name}, line {number}: {line.decode('ascii', 'replace')[:200]}\n"
                f"  expected {show(want)}\n  found    {show(got)}")

    def compare(self, name, command, judge, program, keep):
        """Runs one list on both sides: its counts, or trouble."""
        place = os.path.join(keep, name)
        given = run(command)
        try:
            expected = run([judge, "expect", place + ".counts"], given, "the judge, on list " + name)
            found = run(program, given, f"{self.program}, on list {name}")
        except Trouble:
            save(place + ".list", given)
            raise
        if expected != found:
            for end, text in ((".list", given), (".expected", expected), (".found", found)):
                save(place + end, text)
            raise Trouble(1, self.first_difference(name, given, expected, found))
        return counts(place + ".counts")

    def compared(self, o, judge, program=None):
        """Compares all lists: the sum of their counts, and how many lists there were. The program is that of the options, unless its command is given."""
        try:
            os.makedirs(o.keep, exist_ok=True)
        except OSError as error:
            raise Trouble(1, f"{o.keep} cannot be made: {error.strerror}") from None
        total, number, program = collections.Counter(), 0, program or runner(o.program)
        with concurrent.futures.ThreadPoolExecutor(max(1, o.jobs)) as pool:
            waiting = [pool.submit(self.compare, name, command, judge, program, o.keep) for name, command in self.lists(judge, o.seeds, not o.no_short)]
            try:
                for one in waiting:
                    total += one.result()
                    number += 1
            finally:
                pool.shutdown(cancel_futures=True)
        return total, number

    def parser(self, text, status):
        """The command line of the tool, except how the program is named."""
        folder = os.path.join("build", self.tool)
        parser = argparse.ArgumentParser(prog="tools/" + self.tool, description=text, epilog=status, formatter_class=argparse.RawDescriptionHelpFormatter)
        parser.add_argument("seeds", nargs="?", type=seeds_of, default=seeds_of(self.seeds), metavar="SEEDS", help=f"how many seeds, or FIRST-LAST (default: {self.seeds})")
        parser.add_argument("--keep", default=os.path.join(TOP, folder), metavar="FOLDER", help=f"where to keep lists that differ (default: {folder})")
        parser.add_argument("--jobs", type=int, default=min(2, os.cpu_count() or 1), metavar="N", help="how many lists to run at a time (default: 2)")
        parser.add_argument("--no-short", action="store_true", help="only the random lists, without the fixed ones; it needs --any-counts, because some cases occur only in the fixed lists")
        parser.add_argument("--any-counts", action="store_true", help="do not check or print what occurred")
        return parser

    def options(self, words, text, status):
        """What a command line asks for."""
        parser = self.parser(text, status)
        parser.add_argument("--program", default=program_of(self.program), metavar="FILE", help=f"the program to compare (default: {place(self.program)})")
        return parser.parse_args(words)

    def main(self, o, beside, compared, verdict):
        """Compares all lists, and says how it went: the exit status."""
        def work():
            must_be_there(o.program, self.program)
            total, number = compared(o)
            return f"{number} lists, {verdict(total, o.any_counts)}: all the same"
        return self.told_of(work, beside)

    def told_of(self, work, beside):
        """Does the work of the tool, and says how it went: the exit status."""
        began = time.monotonic()
        try:
            print(f"tools/{self.tool}: {work()} ({time.monotonic() - began:.0f} s)")
            return 0
        except Trouble as trouble:
            sys.stdout.flush()
            kind = f"NOT RUN, nothing is compared with {beside}" if trouble.status == 3 else "failed"
            print(f"tools/{self.tool}: {kind}: {trouble}", file=sys.stderr)
            return trouble.status


REPLAY = Kind("test_replay", "oracle", "compare", ["names", "corners"], ["calls"], rb"(new|begin|end|property|finish|show)|set_boot", "8")
FACE = Kind("face", "oracle", "compare-face", REPLAY.whole, REPLAY.in_parts, REPLAY.told, "4")
READER = Kind("test_reader", "reader", "compare-reader", ["examples", "cut"], ["bytes", "words"], rb"(?!(put|lend) )", "8")
SEARCH = Kind("test_leaves", "search", "compare-search", [], ["corners", "borders", "places", "alike", "names"], rb"", "64")


def counts(path):
    """What a judge's file of counts says."""
    with open(path, encoding="ascii") as f:
        return collections.Counter({tuple(words[:-1]): int(words[-1]) for words in (line.rstrip("\n").split("\t") for line in f)})


def check_counts(wanted, found, table):
    """Trouble if something that must occur did not, or something else did."""
    told = lambda keys: ", ".join(" ".join(k).strip() for k in sorted(keys))
    if wanted - found:
        raise Trouble(1, "these did not occur: " + told(wanted - found))
    if found - wanted:
        raise Trouble(1, f"these occurred, and {table} does not list them: " + told(found - wanted))


def check_calls(total):
    """Trouble if something that tools/oracle/expected lists did not occur, or something else did."""
    groups, wanted = {}, set()
    with open(os.path.join(ORACLE, "expected"), encoding="ascii") as f:
        for line in f:
            front, colon, rest = line.split("#")[0].partition(":")
            calls = [call for word in rest.split() for call in groups.get(word, [word])]
            if front.startswith("@"):
                groups[front] = calls
            elif colon:
                answer, _, cause = front.partition(" ")
                wanted |= {(call, answer.strip("-"), cause) for call in calls}
    check_counts(wanted, {k for k in total if k[0] != "crate" and k[2] != "several"}, "tools/oracle/expected")


def calls_made(total):
    """How many calls there were, without those that only show."""
    return sum(n for k, n in total.items() if k[1])


def expected_causes(path):
    """A table of answers with their causes and corners that must occur: the keys of the counts."""
    wanted = set()
    with open(path, encoding="ascii") as f:
        for line in f:
            answer, colon, causes = line.split("#")[0].partition(":")
            wanted |= {(answer.strip(), cause) for cause in ["", *causes.split()] if colon}
    return wanted


def print_causes(total, what):
    """Prints how often each answer was given, and for which cause or at which corner."""
    by_number = lambda answer: [int(word) if word.isdigit() else word for word in answer.split()]
    for answer in sorted({k[0] for k in total}, key=by_number):
        causes = ", ".join(f"{k[1]}:{n}" for k, n in sorted(total.items()) if k[0] == answer and k[1])
        print(f"{answer}: {total[answer, '']} {what}")
        print(textwrap.indent(textwrap.fill(causes, 112, break_on_hyphens=False), "    ").replace(":", " "))


def causes_verdict(total, any_counts, what, table):
    """Prints and checks answers and their causes: how many answers there were."""
    if not any_counts:
        print_causes(total, what)
        check_counts(expected_causes(os.path.join(TOP, table)), {k for k in total if k[1] != "several"}, table)
    return f"{sum(n for k, n in total.items() if not k[1])} {what}"


def load(path):
    """Reads a file."""
    try:
        with open(path, "rb") as f:
            return f.read()
    except OSError as error:
        raise Trouble(1, f"{path}: {error.strerror}") from None


def save(path, text):
    """Writes a file."""
    with open(path, "wb") as f:
        f.write(text)


def seeds_of(word):
    """A count of seeds from 1 on, or FIRST-LAST: at least one seed."""
    match = re.fullmatch(r"(\d+)(?:-(\d+))?", word)
    if not match:
        raise argparse.ArgumentTypeError(f"{word} is no count of seeds and no FIRST-LAST")
    seeds = range(1, int(match[1]) + 1) if match[2] is None else range(int(match[1]), int(match[2]) + 1)
    if not seeds:
        raise argparse.ArgumentTypeError(f"{word} names no seed")
    return seeds
