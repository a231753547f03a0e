#!/usr/bin/env python3
"""What calls of the library cost from C and from Python, beside a whole run of the program, and what a session holds.

    python3 bench/library.py

It needs gcc, and a library that tools/library has built below target/library. A module of about 1 KB is written for it, beside the payroll.
Statuses: 1 where a host opens and closes fewer than 1,000 sessions a second of that module.
"""
import os
import subprocess
import sys
import tempfile
import time

ROOT = os.path.abspath(os.path.join(os.path.dirname(os.path.abspath(__file__)), '..'))
OUT = os.path.join(ROOT, 'target/library')
DATA = os.path.join(ROOT, 'examples/payroll')
LEAST = 1000
PROCEDURES = 3100
sys.dont_write_bytecode = True
sys.path.insert(0, OUT + '/python')
import flowc


def read(path):
    with open(path, 'rb') as file:
        return file.read()


def median(call, times):
    """The microseconds that a call takes."""
    took = []
    for _ in range(times):
        start = time.perf_counter()
        call()
        took.append(time.perf_counter() - start)
    return sorted(took)[times // 2] * 1e6


def made(room):
    """A hierarchy, a source and a world whose module has about 1 KB: some sums of a number, and what they come to."""
    lines = ['    send total, first %s;' % ' '.join('+ first * %d' % (at + k) for k in range(3)) for at in range(22)]
    texts = {'hierarchy': 'principal Office, Staff;\n', 'world': 'pay = 3\n',
             'source': 'input{Office:} pay;\noutput{Office:} total;\noutput{} month;\nvoid main() throws (End{Office:}) {\n'
                       '    send month, 11;\n    int first = receive pay;\n%s\n}\n' % '\n'.join(lines)}
    for name, text in texts.items():
        with open(os.path.join(room, name), 'w', encoding='utf-8') as file:
            file.write(text)
    return [os.path.join(room, name) for name in ('hierarchy', 'source', 'world')]


def large(room):
    """The same three texts of a module of about 0.7 MB: procedures that compute, branch, loop, call and use arrays."""
    body = ('int{} f%(n)d(int{} a, int{} b) throws (Bounds{}) {\n    int{} sum = a;\n    int{} row[8];\n    int{} at = 0;\n    while (at < 8) {\n        row[at] = a * at + b;\n'
            '        sum = sum + row[at];\n        at = at + 1;\n    }\n    if (sum > %(n)d) { sum = sum - b; } else { sum = sum + b %% 7; }\n'
            '    return sum;\n}\n')
    calls = ''.join('    total = f%d(total, %d);\n' % (n, n) for n in range(PROCEDURES))
    texts = {'hierarchy': '', 'world': '',
             'source': 'output{} out;\n' + ''.join(body % {'n': n} for n in range(PROCEDURES)) + 'void main() throws (Bounds{}) {\n    int{} total = 1;\n' + calls
                       + '    send out, total;\n}\n'}
    for name, text in texts.items():
        with open(os.path.join(room, name), 'w', encoding='utf-8') as file:
            file.write(text)
    return [os.path.join(room, name) for name in ('hierarchy', 'source', 'world')]


def in_c(room, paths, *words):
    program = os.path.join(room, 'library')
    if not os.path.exists(program):
        subprocess.run(['gcc', '-O2', '-I' + OUT + '/include', ROOT + '/bench/library.c', OUT + '/lib/libflowc.a', '-o', program], check=True)
    shown = subprocess.run([program, *paths, *words], capture_output=True, text=True, check=True).stdout
    return {name: float(value) for name, value in (line.split() for line in shown.splitlines())}


def in_python(paths):
    hierarchy, source, world = [read(path) for path in paths]
    module = flowc.compile(hierarchy, source)
    with flowc.Host() as host:
        session = host.open(module, world)
        name = 'Office'

        def whole():
            one = host.open(module, world)
            one.turn(1000000)
            one.view(name)
            one.close()
        return {'check': median(lambda: flowc.check(hierarchy, source), 1000), 'compile': median(lambda: flowc.compile(hierarchy, source), 1000),
                'open_close': median(lambda: host.open(module, world).close(), 1000), 'turn': median(lambda: session.turn(1), 10000),
                'view': median(lambda: session.view(0), 1000) if session.turn(1000000) else 0, 'session': median(whole, 1000)}


def in_program(room, paths):
    """Whole runs of the program, each a process of its own."""
    program, module = os.path.join(ROOT, 'crates/flowc_main/out/flowc_main'), os.path.join(room, 'module')
    if not os.path.exists(program):
        return {}

    def ran(*words):
        return median(lambda: subprocess.run([program, *words], stdout=subprocess.DEVNULL, stderr=subprocess.DEVNULL, check=True), 50)
    return {'check': ran('check', *paths[:2]), 'compile': ran('build', *paths[:2], module), 'session': ran('run', module, paths[2], '--observer', 'Office')}


ROWS = [('check', 'check'), ('compile', 'compile'), ('open, close', 'open_close'), ('turn(1)', 'turn'), ('view', 'view'),
        ('open, turn to the end, view, close', 'session')]


def memory(figures):
    for title, key in (('open', 'bytes_open'), ('that has ended', 'bytes_ended')):
        print('memory of a session %s: %d bytes, %.1f for each byte of its module' % (title, figures[key], figures[key] / figures['module_bytes']))


def report(name, room, paths):
    ways = [in_c(room, paths), in_python(paths), in_program(room, paths)]
    c = ways[0]
    print('%s, a module of %d bytes; microseconds\n%-36s %10s %10s %10s' % (name, c['module_bytes'], '', 'C', 'Python', 'program'))
    for title, key in ROWS:
        print('%-36s %s' % (title, ' '.join('%10.3f' % way[key] if key in way else '%10s' % '' for way in ways)))
    a_second = 1e6 / c['open_close']
    print('sessions opened and closed a second: %d' % a_second)
    memory(c)
    print()
    return a_second


def main():
    with tempfile.TemporaryDirectory() as room:
        report('payroll', room, [os.path.join(DATA, name) for name in ('hierarchy.txt', 'payroll.flow', 'november.txt')])
        status = 0 if report('sums', room, made(room)) >= LEAST else 1
        figures = in_c(room, large(room), 'memory')
        print('large, a module of %d bytes' % figures['module_bytes'])
        memory(figures)
        return status


sys.exit(main())
