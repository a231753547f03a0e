#!/usr/bin/env python3
"""How fast the machine runs code in general, beside Lua 5.4, LuaJIT's and Java's interpreters and a plain one in Rust.

    bench/machine.py PROGRAM [NAME ..]

PROGRAM is the built program (crates/flowc_main/out/flowc_main). Each NAME.flow of bench/programs, or of those that are named, is
built and run, and so is the same program in Lua (`lua5.4`, and `luajit -joff` where it reads the file) and in Java (`java -Xint`,
where there is a `javac`). Where there is a `rustc`, it compiles `bench/interpreter.rs`, an interpreter of module files that is
written by hand, and this takes the same module. What is not installed is said and left out.

All ways are run ROUNDS times, in turn, and the least user and system time of the process counts; that of the program `nothing` is
taken off. All have to give the same last number. Of the programs `relay` alone has an input: READINGS numbers, which the others
read from standard input, and the interpreter in Rust cannot. The table ends with the geometric means of how many times as fast
the machine is.
Where there is a `valgrind`, a second table has the processor instructions for each step of three programs, by callgrind: the
difference of two numbers of steps, so that the start is left out.

The status is 1 where two ways give different numbers.
"""

import math
import os
import re
import resource
import shutil
import subprocess
import sys
import tempfile
from pathlib import Path

ROUNDS = 7
STEPS = 4_000_000_000
PROGRAMS = Path(__file__).with_name("programs")
READINGS = 200_000
COUNTED = ["loop", "matrix", "queens"]
FEW, MANY = 200_000, 1_200_000


def seconds(command, world):
    """The user and system time of a command with a file as its standard input, and the last word that it wrote; none where it
    fails."""
    begun = resource.getrusage(resource.RUSAGE_CHILDREN)
    with open(world, "rb") as given:
        done = subprocess.run(command, stdin=given, capture_output=True)
    ended = resource.getrusage(resource.RUSAGE_CHILDREN)
    took = ended.ru_utime + ended.ru_stime - begun.ru_utime - begun.ru_stime
    return took, done.stdout.split()[-1] if done.returncode == 0 and done.stdout else None


def found(command, needs):
    """Whether a command is installed; what it is needed for is said where it is not."""
    if shutil.which(command):
        return True
    print(f"{command} is not installed: {needs} is left out", file=sys.stderr)
    return False


def build(program, folder, name):
    """Builds a source to a module."""
    (folder / "hierarchy").write_text("")
    module = folder / f"{name}.flob"
    subprocess.run([program, "build", folder / "hierarchy", PROGRAMS / f"{name}.flow", module], check=True)
    return module


def world_of(folder, name):
    """The world of a program: numbers without a pattern that a reader sees, where it receives some."""
    world = folder / f"{name}.world"
    numbers = " ".join(str(number * 7919 % 10007) for number in range(READINGS))
    world.write_text(f"readings = {numbers}\n" if name == "relay" else "")
    return world


def others(folder):
    """What else runs the programs: by its name, what makes the command of a program, its module and its world."""
    ways = {}
    if found("lua5.4", "Lua"):
        ways["Lua 5.4"] = lambda name, *files: ["lua5.4", PROGRAMS / f"{name}.lua"]
    if found("luajit", "LuaJIT's interpreter"):
        ways["LuaJIT -joff"] = lambda name, *files: ["luajit", "-joff", PROGRAMS / f"{name}.lua"]
    if found("javac", "Java's interpreter"):
        subprocess.run(["javac", "-d", folder, *PROGRAMS.glob("*.java")], check=True)
        ways["Java -Xint"] = lambda name, *files: ["java", "-Xint", "-Xshare:auto", "-cp", folder, name.capitalize()]
    if found("rustc", "the interpreter in Rust"):
        built = folder / "interpreter"
        subprocess.run(["rustc", "-O", Path(__file__).with_name("interpreter.rs"), "-o", built], check=True)
        ways["Rust"] = lambda name, module, world: [built, module, str(STEPS)]
    return ways


def least(name, commands, world):
    """The least time of each way that runs the program on a world; all have to give the same number."""
    best, given = dict.fromkeys(commands, math.inf), {}
    for _ in range(ROUNDS):
        for way, command in commands.items():
            took, number = seconds(command, world)
            if number is not None:
                best[way], given[way] = min(best[way], took), number
    if len(set(given.values())) > 1:
        sys.exit(f"{name}: {given!r} differ")
    return best


def row(cells):
    print("|", " | ".join(cells), "|", flush=True)


def measure(program, names, folder):
    """Prints a row for each program, and the means."""
    ways = others(folder)
    row(["Program", "flowc", *ways, *(f"{way} / flowc" for way in ways)])
    print("|---" * (2 + 2 * len(ways)) + "|")
    start, ratios = {}, {way: [] for way in ways}
    for name in ["nothing", *names]:
        module, world = build(program, folder, name), world_of(folder, name)
        commands = {"flowc": [program, "run", module, world, "--steps", str(STEPS)]}
        commands |= {way: make(name, module, world) for way, make in ways.items() if way != "Rust" or name != "relay"}
        best = least(name, commands, world)
        if name == "nothing":
            start = best
            continue
        took = {way: max(best.get(way, math.inf) - start[way], 0.001) for way in start}
        for way in ways:
            ratios[way] += [took[way] / took["flowc"]] if took[way] < math.inf else []
        shown = [f"{took[way]:.3f} s" if took[way] < math.inf else "-" for way in took]
        row([name, *shown, *(f"{took[way] / took['flowc']:.2f}" if took[way] < math.inf else "-" for way in ways)])
    means = [f"{math.exp(sum(map(math.log, all)) / len(all)):.2f}" if all else "-" for all in ratios.values()]
    row(["geometric mean", *[""] * (1 + len(ways)), *means])


def instructions(program, module, world, steps, folder):
    """The processor instructions of a run of so many steps."""
    command = ["valgrind", "--tool=callgrind", f"--callgrind-out-file={folder}/callgrind", program, "run", module, world]
    said = subprocess.run([*command, "--steps", str(steps)], capture_output=True, text=True).stderr
    return int(re.search(r"Collected : (\d+)", said)[1])


def count(program, folder):
    """Prints the processor instructions for each step of some programs."""
    print()
    row(["Program", "processor instructions a step"])
    print("|---|---|")
    for name in COUNTED:
        module = build(program, folder, name)
        few, many = (instructions(program, module, world_of(folder, name), steps, folder) for steps in (FEW, MANY))
        row([name, f"{(many - few) / (MANY - FEW):.1f}"])


def main():
    if len(sys.argv) < 2:
        sys.exit(__doc__)
    program = os.path.abspath(sys.argv[1])
    names = sys.argv[2:] or sorted(file.stem for file in PROGRAMS.glob("*.flow") if file.stem != "nothing")
    with tempfile.TemporaryDirectory() as folder:
        measure(program, names, Path(folder))
        if found("valgrind", "the count of instructions"):
            count(program, Path(folder))


if __name__ == "__main__":
    main()
