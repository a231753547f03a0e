"""Compiles the payroll, lists its channels, and has a source that leaks refused, with the way of the flow."""
import os

import flowc

HERE = os.path.dirname(os.path.abspath(__file__))
DATA = os.path.join(HERE, '../../crates/rows/data/payroll')


def read(name: str) -> bytes:
    with open(os.path.join(DATA, name), 'rb') as file:
        return file.read()


hierarchy = read('hierarchy.txt')
module = flowc.compile(hierarchy, read('payroll.flow'))
print('a module of %d bytes' % len(module))
for line in flowc.listing(module).splitlines():
    if line.startswith(('input ', 'output ')):
        print(line)
try:
    flowc.explain(hierarchy, read('shows-the-total.flow'))
except flowc.Refused as refused:
    print(refused)
    print(refused.chain, end='')
