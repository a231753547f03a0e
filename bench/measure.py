#!/usr/bin/env python3
"""How fast the program checks and compiles a source, reads a module file and takes its steps, against a reference command and
compilers for C.

    bench/measure.py PROGRAM REFERENCE [WORD..]

PROGRAM is the built program, crates/flowc_main/out/flowc_main after the run in the README. REFERENCE with its words is
any command that takes about a second of one processor, and it is timed in the same run, so that figures of two machines
can be compared: "bytes in the time of the reference" is the number of bytes of a module file that the program decodes
and verifies while the reference runs once, and "steps" likewise the number of steps of the machine. Commands that are
compared are run in turn, nine times each, and the least time of each counts.

Sources are generated: locals with a sum and a branch each, straight lines, procedures with loops and arrays and their
calls, and procedures that use every construct of the language. The first three are made in C too. Reported are
- for each shape and each doubling from 128 KiB to 1 MiB, the time of `check` and `build`, and how many times that of half the
  source it is: 2 where the time grows in step with the source;
- at 1 MiB, `check` and `build` beside `tcc -c` and `gcc -fsyntax-only`, the memory that each byte takes, and how many times as
  long as a check a build takes;
- where valgrind is installed, the processor instructions for each byte of source, and those for each byte of a module that is
  decoded and verified, and that is opened for a run.
What an empty program takes is taken off. A tool that is not installed is named and left out.
"""

import re
import shutil
import struct
import subprocess
import sys
import tempfile
import time
from pathlib import Path

ROUNDS = 9
PAIRS = 4_000_000
SIZES = [1 << power for power in (17, 18, 19, 20)]
TIME = "/usr/bin/time"
# Where the backend has put the making of a machine into its caller, that one's share beside what it decodes and verifies counts.
DECODED, OPENED, CALLER = "verifier::loading::load", "machine::run::Machine::new", "flowc::running::start"


# Sources: each shape makes a text of so many bytes, in the language or in C.


def repeated(size, head, tail, part):
    """A text of so many bytes: the head, the parts by their numbers as long as they fit, and the tail."""
    parts = [head]
    left = size - len(head) - len(tail)
    number = 0
    while len(part(number)) <= left:
        parts.append(part(number))
        left -= len(part(number))
        number += 1
    return "".join(parts) + " " * left + tail


FLOW_HEAD, FLOW_TAIL = "input{} q;\noutput{} pub;\nvoid main() throws (End{}) {\n", "}\n"
C_HEAD = "extern int recv(void);\nextern void send(int);\n"
C_MAIN, C_TAIL = "int main(void) {\n", "    return 0;\n}\n"


def locals_and_branches(size, in_c):
    """Each part declares a local by a sum, and assigns to it under a condition."""

    def part(number):
        name = f"v{number}"
        return (
            f"    int {name} = {number} + {number % 7};\n"
            f"    if ({name} > {number}) {{ {name} = {name} - 1; }}\n"
        )

    if in_c:
        return repeated(size, C_HEAD + C_MAIN, C_TAIL, part)
    return repeated(size, FLOW_HEAD, FLOW_TAIL, part)


def straight_lines(size, in_c):
    """Each part receives a number, adds to it and sends it, in a variable of its own."""

    def part(number):
        name = f"v{number}"
        if in_c:
            return f"    int   {name} = recv();\n    {name} = {name} + 1;\n    send(  {name} + 2);\n"
        return f"    int{{}} {name} = receive q;\n    {name} = {name} + 1;\n    send pub, {name} + 2;\n"

    if in_c:
        return repeated(size, C_HEAD + C_MAIN, C_TAIL, part)
    return repeated(size, FLOW_HEAD, FLOW_TAIL, part)


LOOP_UNIT = """int{} f@(int{} n) {
    int cells[8];
    int i = 0;
    int sum = n;
    while (i < 8) {
        cells[3] = sum * i;
        sum = sum + cells[5];
        i = i + 1;
    }
    return sum;
}
"""

EVERY_UNIT = """int{} f@{}(int{} n, boolean{} up) throws (Low{}) {
    int i = 0;
    int part = -n;
    int cells[8];
    try {
        while (i < 8 && !up || n == 3) {
            cells[i] = part / (i + 1) - n * 2;
            if (cells[i] > 100) { break; } else { i = i + 1; continue; }
        }
        receive q;
        part = receive q;
    } catch (Bounds) {
        part = cells[0] % 7;
    } catch (Arith) {
        { int rest = 1; part = rest; }
    } catch (End) {
        throw Low;
    }
    if (part <= 0) { return n + total; }
    total = part;
    int{Alice:} mine = 0;
    try { mine = receive s; } catch (End) { }
    flag = mine != 0;
    send own, mine + 1;
    send pub, part;
    return part;
}
"""

EVERY_HEAD = """exception Low;
input{} q;
input{Alice:} s;
output{} pub;
output{Alice:} own;
global int{} total = 0;
global boolean{Alice:} flag = true;
"""


def procedures_and_calls(size, head, unit, begin, call, end):
    """A procedure for each number, and behind them a call of each."""
    procedures, calls = [], []
    left = size - len(head) - len(begin) - len(end)
    while True:
        number = str(len(calls))
        procedure, called = unit.replace("@", number), call.replace("@", number)
        if len(procedure) + len(called) > left:
            return head + "".join(procedures) + begin + "".join(calls) + " " * left + end
        procedures.append(procedure)
        calls.append(called)
        left -= len(procedure) + len(called)


def loops_and_calls(size, in_c):
    """Procedures with an array and a loop, and a call of each."""
    call = "    x = f@(x + @);\n"
    if in_c:
        begin = C_MAIN + "    int x = 0;\n"
        return procedures_and_calls(size, C_HEAD, LOOP_UNIT.replace("{}", ""), begin, call, C_TAIL)
    begin = "void main() {\n    int x = 0;\n"
    return procedures_and_calls(size, "output{} pub;\n", LOOP_UNIT, begin, call, "}\n")


def every_construct(size, in_c):
    """Procedures that each use every construct of the language, and a call of each. There is no such thing in C."""
    begin = "void main() throws (Low{}) {\n    int x = 0;\n"
    return procedures_and_calls(size, EVERY_HEAD, EVERY_UNIT, begin, "    x = f@(x, true);\n", "}\n")


IN_BOTH = {
    "locals with branches": locals_and_branches,
    "straight lines": straight_lines,
    "loops and calls": loops_and_calls,
}
SHAPES = {**IN_BOTH, "every construct": every_construct}


# Runs of commands: their seconds, their memory and their instructions.


def seconds(command, statuses):
    """The seconds of a run, which has to end with one of the statuses, if they are given."""
    start = time.perf_counter()
    ended = subprocess.run(command, stdout=subprocess.DEVNULL, stderr=subprocess.PIPE)
    took = time.perf_counter() - start
    if statuses is not None and ended.returncode not in statuses:
        sys.exit(f"{' '.join(command)}: status {ended.returncode}: {ended.stderr.decode()}")
    return took


def least(commands, statuses=(0,)):
    """The least seconds of each of some commands, which are run in turn."""
    rounds = [[seconds(command, statuses) for command in commands] for _ in range(ROUNDS)]
    return [min(column) for column in zip(*rounds)]


def memory(folder, command):
    """The most bytes of memory that a run holds, by the small program `time`: a child of this one would count what this one holds."""
    out = folder / "memory"
    words = [TIME, "-f", "%M", "-o", str(out)]
    subprocess.run(words + command, stdout=subprocess.DEVNULL, stderr=subprocess.DEVNULL, check=True)
    return int(out.read_text()) << 10


def instructions(folder, command, functions=()):
    """The processor instructions of a command, and those of some functions with all that they call."""
    out = folder / "callgrind.out"
    words = ["valgrind", "--tool=callgrind", f"--callgrind-out-file={out}"]
    subprocess.run(words + command, capture_output=True)
    text = out.read_text(errors="replace")
    total = int(re.search(r"^(?:summary|totals): (\d+)", text, re.MULTILINE)[1])
    if not functions:
        return total, {}
    annotate = ["callgrind_annotate", "--inclusive=yes", "--threshold=100", str(out)]
    listing = subprocess.run(annotate, capture_output=True, text=True).stdout
    by_name = {}
    for name in functions:
        row = re.search(rf"^ *([\d,]+) .*:{re.escape(name)} ", listing, re.MULTILINE)
        if row:
            by_name[name] = int(row[1].replace(",", ""))
    return total, by_name


def module(pairs):
    """A module without channels whose code stores a number in its one slot again and again."""
    push, store, leave = b"\x01" + struct.pack(">i", 7), b"\x05" + struct.pack(">I", 0), b"\x23"
    code = (push + store) * pairs + leave
    slot = b"\x00" + struct.pack(">I", 0)
    head = b"FLOB" + struct.pack(">IIIIII", 1, 0, 0, 0, 0, 0)
    procedure = struct.pack(">IBI", 1, 0, 0) + struct.pack(">I", 1) + slot
    body = struct.pack(">I", len(code)) + code + struct.pack(">I", 0)
    return head + procedure + body + struct.pack(">I", 0)


class Bench:
    """The program with the folder of its files."""

    def __init__(self, program, folder, unit):
        self.program, self.folder, self.unit = program, folder, unit
        self.hierarchy = folder / "hierarchy.txt"
        self.hierarchy.write_text("principal Alice, Bob;")
        self.world = folder / "empty.txt"
        self.world.write_text("")
        self.module = folder / "module.flob"
        self.empty = folder / "nothing.flow"
        self.empty.write_text("void main() { }")

    def checking(self, source):
        return [self.program, "check", str(self.hierarchy), str(source)]

    def building(self, source):
        return [self.program, "build", str(self.hierarchy), str(source), str(self.module)]

    def opening(self, file):
        return [self.program, "run", str(file), str(self.world), "--steps", "0"]

    def write(self, make, size, in_c=False):
        file = self.folder / ("long.c" if in_c else "long.flow")
        file.write_text(make(size, in_c))
        return file

    def growth(self):
        """How the time grows with the source."""
        starts = least([self.checking(self.empty), self.building(self.empty)])
        for shape, make in SHAPES.items():
            before = [None, None]
            for size in SIZES:
                source = self.write(make, size)
                found = least([self.checking(source), self.building(source)])
                for place, verb in enumerate(("check", "build")):
                    took = max(found[place] - starts[place], 1e-6)
                    ratio = "" if before[place] is None else f", {took / before[place]:.2f} times that of half"
                    print(f"{verb} of {size >> 10} KiB of {shape}: {took * 1000:.1f} ms{ratio}")
                    before[place] = took
            for place, verb in enumerate(("check", "build")):
                rate = SIZES[-1] / before[place]
                per_unit = f"{rate * self.unit:,.0f} in the time of the reference"
                print(f"{verb} of {shape}: {rate:,.0f} bytes per second, {per_unit}")
            print(f"build by check of {shape}: {before[1] / before[0]:.2f}")

    def beside_c(self):
        """Times and memory at 1 MiB, beside compilers for C on the same programs."""
        size = SIZES[-1]
        object_file = str(self.folder / "long.o")
        compilers = {"tcc -c": ["tcc", "-c", "-o", object_file], "gcc -fsyntax-only": ["gcc", "-fsyntax-only"]}
        for name in [name for name, words in compilers.items() if shutil.which(words[0]) is None]:
            print(f"{name}: not installed, left out")
            del compilers[name]
        bare = self.folder / "nothing.c"
        bare.write_text("int main(void) { return 0; }\n")
        nothing = [self.checking(self.empty), self.building(self.empty)]
        nothing += [words + [str(bare)] for words in compilers.values()]
        starts = least(nothing)
        if shutil.which(TIME) is None:
            print(f"{TIME}: not installed, so no memory is measured")
        for shape, make in IN_BOTH.items():
            source, in_c = self.write(make, size), self.write(make, size, in_c=True)
            commands = [self.checking(source), self.building(source)]
            commands += [words + [str(in_c)] for words in compilers.values()]
            took = [max(one - start, 1e-6) for one, start in zip(least(commands), starts)]
            for place, name in enumerate(["check", "build", *compilers]):
                line = f"{shape}, {name}: {took[place] * 1000:.1f} ms"
                if compilers:
                    line += f", {took[place] / took[2]:.2f} times {next(iter(compilers))}"
                if shutil.which(TIME) is not None:
                    held = memory(self.folder, commands[place]) - memory(self.folder, nothing[place])
                    line += f", {held / size:.1f} bytes of memory a byte"
                print(line)

    def counts(self):
        """Processor instructions for each byte of source and of a module."""
        if shutil.which("valgrind") is None:
            print("valgrind: not installed, so no instructions are counted")
            return
        size = SIZES[-1]
        starts = [instructions(self.folder, command(self.empty))[0] for command in (self.checking, self.building)]
        for shape, make in SHAPES.items():
            source = self.write(make, size)
            for verb, command, start in zip(("check", "build"), (self.checking, self.building), starts):
                total, _ = instructions(self.folder, command(source))
                print(f"{verb} of {shape}: {(total - start) / size:.0f} instructions a byte")
            if make in IN_BOTH.values() and shutil.which("tcc") is not None:
                words = ["tcc", "-c", "-o", str(self.folder / "long.o"), str(self.write(make, size, in_c=True))]
                print(f"tcc -c of {shape}: {instructions(self.folder, words)[0] / size:.0f} instructions a byte")
            length = self.module.stat().st_size
            _, parts = instructions(self.folder, self.opening(self.module), (DECODED, OPENED, CALLER))
            if OPENED not in parts and CALLER in parts:
                parts[OPENED] = parts[CALLER] - parts.get(DECODED, 0)
            for what, name in (("decode and verify", DECODED), ("open", OPENED)):
                if name in parts:
                    print(f"{what} of the module of {shape}: {parts[name] / length:.0f} instructions a byte")
                else:
                    print(f"{what} of the module of {shape}: no function {name} in this program")

    def steps(self):
        """How fast the program decodes and verifies a module file, and takes its steps."""
        steps = 2 * PAIRS + 1
        file = self.folder / "long.flob"
        content = module(PAIRS)
        file.write_bytes(content)
        read, whole = least([self.opening(file), self.opening(file)[:-1] + [str(steps)]], (0, 6))
        rate = len(content) / read
        print(f"decode and verify: {rate:,.0f} bytes per second, {rate * self.unit:,.0f} in the time of the reference")
        taken = whole - read
        if taken <= 0:
            print("run: its steps take less time than two runs differ by; try again on a quiet machine")
            return
        print(f"run: {steps / taken:,.0f} steps per second, {steps / taken * self.unit:,.0f} in the time of the reference")


def main(words):
    if len(words) < 2:
        sys.exit(__doc__)
    program, reference = words[0], words[1:]
    unit = least([reference], None)[0]
    print(f"reference: {unit:.3f} s")
    with tempfile.TemporaryDirectory() as folder:
        bench = Bench(program, Path(folder), unit)
        bench.growth()
        bench.beside_c()
        bench.counts()
        bench.steps()


main(sys.argv[1:])
