#!/usr/bin/env python3
"""How long a module takes to be read and verified, and how that grows with its size.

    bench/modules.py PROGRAM

PROGRAM is the built program (crates/flowc_main/out/flowc_main). Each module is built at 256 KiB, 512 KiB and 1 MiB and run for no
step, so that its bytes are decoded and its code is verified. The least of ROUNDS user and system times counts, and that of a module
of one instruction is taken off. Growth is the time at 1 MiB by that at 512 KiB: 2 where the work is in proportion to the size. Behind a
module that takes more than BOUND times what many short procedures of its size take stands `TOO SLOW`.

Then how much memory is held where bytes are read and refused, by byte read, past the LITTLE that the program itself may take: each
module of 8 MiB is read without its last byte under a limit of the process. So is a small module with any four of its bytes made ff,
so that each count claims more than there is. The status is 1 where a module is too slow, 64 bytes for each byte read do not do, or a
claim takes memory.
"""

import resource
import struct
import subprocess
import sys
import tempfile
from pathlib import Path

ROUNDS = 3
BOUND = 20
LITTLE = 24 << 20
SIZES = [256 << 10, 512 << 10, 1 << 20]
PUSH_TRUE, POP, NOT, RETURN = b"\x02\x01", b"\x03", b"\x16", b"\x23"


def jump_if_false(target):
    return b"\x21" + struct.pack(">I", target)


def call(procedure):
    return b"\x22" + struct.pack(">I", procedure)


def procedure(code, parameters=0, slots=0, handlers=()):
    """A procedure that gives no value, whose slots are ints."""
    out = struct.pack(">BII", 0, parameters, slots) + struct.pack(">BI", 0, 0) * slots
    out += struct.pack(">I", len(code)) + code + struct.pack(">I", len(handlers))
    return out + b"".join(struct.pack(">IIII", *handler) for handler in handlers)


def module(*procedures):
    """A module without channels that starts at its first procedure."""
    return b"FLOB" + struct.pack(">IIIIII", 1, 0, 0, 0, 0, 0) + struct.pack(">I", len(procedures)) + b"".join(procedures) + bytes(4)


def handler_for_each_instruction(size):
    count = size // 17
    code = PUSH_TRUE + NOT * count + POP + RETURN
    return module(procedure(code, handlers=[(2 + i, 3 + i, 0, len(code) - 1) for i in range(count)]))


def handlers_over_all_code(size):
    count = size // 32
    code = PUSH_TRUE + NOT * (size // 2) + POP + RETURN
    return module(procedure(code, handlers=[(0, len(code) - 1, 0, len(code) - 1)] * count))


def pushes_then_branches(size):
    count = size // 7
    pushes = PUSH_TRUE * count
    return module(procedure(pushes + b"".join(jump_if_false(len(pushes) + 5 * (i + 1)) for i in range(count)) + RETURN))


def jumps_to_one_place(size):
    count = size // 7
    return module(procedure((PUSH_TRUE + jump_if_false(7 * count)) * count + RETURN))


def forks_to_calls(size):
    """Forks that each go to a call of a procedure with very many parameters."""
    parameters, forks = size * 50 // 1049, size * 40 // 1049
    first = 5 * parameters
    calls = first + 7 * forks
    code = b"\x01\x00\x00\x00\x00" * parameters
    code += b"".join(PUSH_TRUE + jump_if_false(calls + 6 * (i + 1)) for i in range(forks))
    code += (call(1) + RETURN) * (forks + 1)
    return module(procedure(code), procedure(RETURN, parameters=parameters, slots=parameters))


def many_procedures(size):
    """What a compiler writes: many short procedures."""
    code = PUSH_TRUE + jump_if_false(10) + PUSH_TRUE + POP + RETURN
    each = procedure(code)
    return module(*[each] * (size // len(each)))


MODULES = {
    "many short procedures": many_procedures,
    "a handler for each instruction": handler_for_each_instruction,
    "handlers over all code": handlers_over_all_code,
    "pushes, then branches": pushes_then_branches,
    "jumps to one place": jumps_to_one_place,
    "forks to calls with many parameters": forks_to_calls,
}


def seconds(program, path, world):
    best, before = float("inf"), 0
    for _ in range(ROUNDS + 1):
        ended = subprocess.run([program, "run", path, world, "--steps", "0"], capture_output=True)
        used = resource.getrusage(resource.RUSAGE_CHILDREN)
        after = used.ru_utime + used.ru_stime
        # The first one tells where the others begin.
        best, before = min(best, after - before) if before else best, after
        if ended.returncode not in (0, 6):
            sys.exit(f"{path}: status {ended.returncode}: {ended.stderr.decode()[:200]}")
    return best


def fits(program, path, most):
    """Whether so many bytes of memory are enough to read a module and to refuse it, or to list it."""
    limited = f'ulimit -v {most >> 10}; exec "$0" list "$1"'
    status = subprocess.run(["sh", "-c", limited, program, str(path)], capture_output=True).returncode
    if status not in (0, 1, 3):
        sys.exit(f"{path}: status {status}")
    return status != 3


def is_bounded(program, path):
    """Prints how much is held by byte read, and answers whether that is bounded."""
    print("\n| Module | bytes held by byte read, at most |\n|---|---|")
    right = True
    for name, build in MODULES.items():
        code = build(8 << 20)[:-1]
        path.write_bytes(code)
        held = [it for it in (4, 8, 16, 32, 64) if fits(program, path, LITTLE + it * len(code))]
        right &= bool(held)
        print(f"| {name} | {held[0] if held else 'more than 64'} |", flush=True)
    small = module(procedure(PUSH_TRUE + POP + RETURN, slots=1, handlers=[(0, 2, 0, 3)]))
    for at in range(8, len(small) - 3):
        path.write_bytes(small[:at] + b"\xff" * 4 + small[at + 4 :])
        if not fits(program, path, LITTLE):
            right = False
            print(f"| {len(small)} bytes, a claim at {at} | more than {LITTLE >> 20} MiB |")
    return right


def main():
    program = sys.argv[1]
    folder = Path(tempfile.mkdtemp())
    world, path = folder / "world", folder / "module"
    world.write_text("")
    path.write_bytes(module(procedure(RETURN)))
    nothing = seconds(program, path, world)
    print("| Module | 256 KiB | 512 KiB | 1 MiB | growth |")
    print("|---|---|---|---|---|")
    usual, slow = [], 0
    for name, build in MODULES.items():
        took = []
        for size in SIZES:
            path.write_bytes(build(size))
            took.append(max(seconds(program, path, world) - nothing, 1e-3))
        usual = usual or took
        is_slow = any(time > BOUND * other for time, other in zip(took, usual))
        slow += is_slow
        print(f"| {name} | " + " | ".join(f"{t:.3f} s" for t in took) + f" | {took[2] / took[1]:.2f}{', TOO SLOW' if is_slow else ''} |", flush=True)
    return 0 if is_bounded(program, path) and not slow else 1


if __name__ == "__main__":
    sys.exit(main())
