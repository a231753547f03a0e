#!/usr/bin/env python3
"""How long the program takes for sources that are made to hurt, against a benign source of the same size.

    bench/hostile.py PROGRAM [KIB..]

PROGRAM is the built program. For each size (256, 512 and 1024 KiB unless others are given) and each shape it prints a line: the
seconds of the processor that `check` takes, how many times those of the benign source of the size they are, how many times those of the
same shape at half the size, and the most memory, also as bytes for each byte of the source beyond what the benign one takes, and how
many times that of half the size it is. The least time of three runs counts, and a run is cut off after 120 seconds. Behind a shape that
takes more than its bound of the benign source's time stands `TOO SLOW`, and behind one that takes more than its bound of memory, or more
than 2.1 times that of half the size, `TOO LARGE`; the status is 1 where there is one.
"""

import itertools
import os
import random
import subprocess
import sys
import tempfile
import time
from pathlib import Path

ROUNDS = 3
LIMIT = 120
# The most memory that a source may take, as a multiple of what one of half the size takes.
DOUBLED = 2.1
SIZES = [256, 512, 1024]


def pieces(room, part):
    """The parts by number, from 0 on, that fit into so many bytes; each is a tuple of texts for different places of a source."""
    found, used = [], 0
    for number in itertools.count():
        made = part(number)
        used += sum(map(len, made))
        if used > room:
            return found
        found.append(made)


def joined(found, place=0):
    """The texts of all parts for one of the places."""
    return "".join(made[place] for made in found)


def chain(count):
    """A hierarchy in which each principal acts for the one before it."""
    names = ", ".join(f"P{n}" for n in range(count))
    return f"principal {names};\n" + "".join(f"P{n + 1} actsfor P{n};\n" for n in range(count - 1))


def flat(count):
    """A hierarchy without pairs."""
    return "principal " + ", ".join(f"P{n}" for n in range(count)) + ";\n"


def policies(size, first=0):
    """A label of about so many bytes, whose policies all differ: an owner, and a set of readers by the bits of a number."""
    parts, used, number = [], 2, first
    while True:
        readers = ", ".join(f"P{bit}" for bit in range(1, 24) if number >> (bit - 1) & 1)
        part = f"P{number % 200 + 24}: {readers}"
        if used + len(part) + 1 > size:
            return "{" + ";".join(parts) + "}"
        parts.append(part)
        used += len(part) + 1
        number += 1


def filled(head, line, tail, size):
    """A text of the size: a line again and again between a head and a tail."""
    count = max(0, (size - len(head) - len(tail)) // len(line))
    return head + line * count + tail


def benign(size):
    head = "input{} q;\noutput{} pub;\nvoid main() throws (End{}) {\n    int{} x = receive q;\n"
    return flat(2), filled(head, "    x = x + 1;\n    send pub, x + 2;\n", "}\n", size)


def one_long_label(size):
    label = policies(size // 6)
    head = f"input{label} s;\nvoid main() throws (End{label}) {{\n"
    return flat(256), filled(head, "    receive s;\n", "}\n", size)


def two_long_labels(size):
    one, other = policies(size // 4 - 200), policies(size // 4 - 200, 1)
    source = f"input{one} s;\noutput{other} o;\nvoid main() throws (End{one}) {{ int{one} x = receive s; send o, 1; }}\n"
    return chain(256), source


def nearly_equal_long_labels(size):
    """A flow that is allowed, from a long label to one with a policy more: each policy is looked for in a list as long."""
    one = policies(size // 2 - 100)
    source = f"output{one[:-1]};P255:}} o;\nvoid main() {{ int{one} x = 0; send o, x; }}\n"
    return flat(256), source


def many_readers(size):
    """A flow that is allowed between two labels whose policies have nearly all principals as readers: each policy of the one is held
    against each of the other, and only the last one, which has one reader, covers it."""
    names, sides, used = [f"P{n}" for n in range(256)], ([], []), 0
    for number, left_out in enumerate(itertools.combinations(range(200, 255), 2)):
        readers = ",".join(names[n] for n in range(1, 256) if n not in left_out)
        if used + len(readers) > size - 300:
            break
        sides[number % 2].append(f"P0:{readers}")
        used += len(readers) + 4
    one, other = "{" + ";".join(sides[0]) + "}", "{" + ";".join(sides[1] + ["P0:P255"]) + "}"
    return flat(256), f"output{other} o;\nvoid main() {{ int{one} x = 0; send o, x; }}\n"


def many_labels(size):
    parts, names, used = [], [], 0
    while used < size * 2 // 3:
        name = f"s{len(names)}"
        part = f"input{policies(2000, 7 * len(names))} {name};\n"
        parts.append(part)
        names.append(name)
        used += len(part)
    body = "".join(f"    receive {name};\n" for name in names)
    return flat(256), "".join(parts) + "void main() throws (End{}) {\n" + body + "}\n"


def long_names(size):
    name = "a" * (size // 8)
    line = f"    receive {name};\n"
    return flat(2), filled(f"input{{}} {name};\nvoid main() throws (End{{}}) {{\n", line, "}\n", size)


def many_names(size):
    head, tail = "input{} q;\nvoid main() throws (End{}) {\n", "}\n"
    found = pieces(size - len(head) - len(tail), lambda n: (f"    int{{}} v{n} = receive q;\n",))
    return flat(2), head + joined(found) + tail


def open_comments(size):
    return flat(2), filled("void main() { ", "/*", "", size)


def many_refused_flows(size):
    head = "input{P0:} s;\noutput{} o;\nvoid main() throws (End{P0:}) {\n    int{P0:} x = receive s;\n"
    return flat(2), filled(head, "    send o, x;\n", "}\n", size)


def labels_around_a_cycle(size):
    """Many locals that are copied round a circle, each with a label of its own flowing in."""
    found = pieces(
        size - 40, lambda n: (f"int{{P{n % 256}: P{n // 256}}} x{n} = 0;\nint a{n} = x{n};\n", f"a{n + 1} = a{n};\n")
    )
    copies = joined(found[:-1], 1) + f"a0 = a{len(found) - 1};\n"
    return flat(256), "void main() {\n" + joined(found) + copies + "}\n"


def copies_backwards(size):
    """A chain of copies that is written from its end to its begin."""
    found = pieces(size - 20, lambda n: (f"int a{n} = 0;\n", f"a{n + 1} = a{n};\n"))
    return flat(2), "void main() {\n" + joined(found) + joined(reversed(found[:-1]), 1) + "}\n"


def labels_along_a_backward_chain(size):
    """The same chain, with a label of its own flowing into each of the locals: each label goes on to all that come behind."""
    found = pieces(
        size - 20, lambda n: (f"int{{P{n % 256}: P{n // 256}}} x{n} = 0;\nint a{n} = x{n};\n", f"a{n + 1} = a{n};\n")
    )
    return flat(256), "void main() {\n" + joined(found) + joined(reversed(found[:-1]), 1) + "}\n"


def sets_of_labels_one_after_another(size):
    """Many sets of six labels, each in a local of its own, that are copied one after another to each of a dozen others."""
    found = pieces(
        size - 400,
        lambda n: (
            f"int s{n} = 0;\n"
            + "".join(f"int{{P{(6 * n + k) % 256}: P{(6 * n + k) // 256}}} x{n}_{k} = 0; s{n} = x{n}_{k};\n" for k in range(6)),
            "".join(f"t{k} = s{n};" for k in range(12)) + "\n",
        ),
    )
    locals_between = "".join(f"int t{k} = 0;\n" for k in range(12))
    return flat(256), "void main() {\n" + locals_between + joined(found) + joined(found, 1) + "}\n"


def many_labels_to_one_channel(size):
    """Many locals, each with a label of its own, that are sent to one channel: each label is compared with the channel's, and is
    new where it is."""
    found = pieces(size - 40, lambda n: (f"int{{P{n % 256}: P{n // 256 % 256}}} x{n} = 0; send o, x{n};\n",))
    return chain(256), "output{P255:} o;\nvoid main() {\n" + joined(found) + "}\n"


def one_policy(number):
    """A policy of its own for each number below 256 times 256 times 256."""
    return f"P{number % 256}: P{number // 256 % 256}, P{number // 65536}"


def long_label_named_again(size):
    """A long label, which each of many locals has by the name of a global."""
    head = f"global int{policies(size * 2 // 3)} g = 1;\nvoid main() {{\n"
    found = pieces(size - len(head) - 2, lambda n: (f"int{{g}} a{n} = g;\n",))
    return flat(256), head + joined(found) + "}\n"


def long_label_along_names(size):
    """The same, each local by the name of the one before."""
    head = f"void main() {{\nint{policies(size * 2 // 3)} a0 = 1;\n"
    found = pieces(size - len(head) - 2, lambda n: (f"int{{a{n}}} a{n + 1} = a{n};\n",))
    return flat(256), head + joined(found) + "}\n"


def long_label_beside_policies(size):
    """A long label, by the name of a global, each time beside another policy: labels that are all long and all differ."""
    head = f"global int{policies(size * 2 // 3)} g = 1;\nvoid main() {{\n"
    found = pieces(size - len(head) - 2, lambda n: (f"int{{g; {one_policy(n)}}} a{n} = g;\n",))
    return flat(256), head + joined(found) + "}\n"


def one_policy_more_each(size):
    """A chain of locals, each with the label of the one before and one policy more."""
    head = "void main() {\nint{} a0 = 1;\n"
    found = pieces(size - len(head) - 2, lambda n: (f"int{{a{n}; {one_policy(n)}}} a{n + 1} = 0;\n",))
    return flat(256), head + joined(found) + "}\n"


def long_label_named_everywhere(size):
    """A long label, which every label of further channels, globals, exceptions, procedures, parameters and locals names."""
    head, tail = f"global int{policies(size * 2 // 3)} g = 1;\n", "void main() { }\n"
    found = pieces(
        size - len(head) - len(tail),
        lambda n: (
            f"input{{g}} c{n};\nglobal int{{g}} h{n} = 0;\nexception e{n};\n"
            f"int{{g}} f{n}{{g}}(int{{g}} p) : {{g}} throws (e{n}{{g}}) {{ int{{g}} x = p; return x; }}\n",
        ),
    )
    return flat(256), head + joined(found) + tail


def half_of_a_long_label_flows(size):
    """A long label and another one with half of its policies, which flows again and again to a label that names the long one and has a
    policy beside it."""
    long = policies(size // 2)
    half = ";".join(long[1:-1].split(";")[::2])
    head = f"global int{long} g = 1;\nglobal int{{{half}}} h = 1;\nvoid main() {{\n"
    found = pieces(size - len(head) - 2, lambda n: (f"int{{g; {one_policy(n)}}} a{n} = h;\n",))
    return flat(256), head + joined(found) + "}\n"


def halves_of_two_long_labels_flow(size):
    """Two long labels and one with half of the policies of each, which flows again and again to a label that names both and has a
    policy beside them."""
    one, other = policies(size // 4), policies(size // 4, 1 << 20)
    half = ";".join(one[1:-1].split(";")[::2] + other[1:-1].split(";")[::2])
    head = f"global int{one} g = 1;\nglobal int{other} k = 1;\nglobal int{{{half}}} h = 1;\nvoid main() {{\n"
    found = pieces(size - len(head) - 2, lambda n: (f"int{{g; k; {one_policy(n)}}} a{n} = h;\n",))
    return flat(256), head + joined(found) + "}\n"


def small_policy(number):
    """A policy of its own for each number below 255 times 256."""
    return f"P{number % 255}: P{number // 255}"


def to_many_places(size, first, label, place, between=lambda n: "u"):
    """Many locals with labels by their number, which are copied to a local without a label, which is copied to as many others with labels of their own.
    Before them stand first lines."""
    found = pieces(
        size - len(first) - 20,
        lambda n: (
            f"int{{{label(n)}}} x{n} = 0; {between(n)} = x{n};\n",
            f"int{{{place(n)}}} z{n} = {between(n)};\n",
        ),
    )
    return chain(256), first + joined(found) + joined(found, 1) + "}\n"


def many_labels_to_many_places(size):
    """Many locals, each with a label of its own, that are copied to one, which is copied to many others with labels of their own."""
    return to_many_places(size, "void main() {\nint u = 0;\n", small_policy, lambda n: f"P255:; {one_policy(n)}")


def pairs_of_policies_to_many_places(size):
    """The same with two policies in each label."""
    label = lambda n: f"{small_policy(n)}; P{(n * 7 + 3) % 255}: P{n // 255}"
    return to_many_places(size, "void main() {\nint u = 0;\n", label, lambda n: f"P255:; {one_policy(n)}")


def many_labels_to_places_with_many_readers(size):
    """The same where every twentieth of the places has more than a hundred readers."""
    readers = ", ".join(f"P{n}" for n in range(128, 250))
    place = lambda n: f"P255: P{n % 250}, {readers if n % 20 == 0 else f'P{n // 250}'}"
    return to_many_places(size, "void main() {\nint u = 0;\n", small_policy, place)


def left_sides_in_turn(size):
    """The same with two such locals, which are copied to the places in turn."""
    first, place = "void main() {\nint u = 0; int v = 0;\n", lambda n: f"P255:; {one_policy(n)}"
    return to_many_places(size, first, small_policy, place, lambda n: "uv"[n % 2])


def three_left_sides_in_turn(size):
    """The same with three of them."""
    first, place = "void main() {\nint u = 0; int v = 0; int w = 0;\n", lambda n: f"P255:; {one_policy(n)}"
    return to_many_places(size, first, small_policy, place, lambda n: "uvw"[n % 3])


def nearly_equal_left_sides_in_turn(size):
    """The same with forty of them, which have the same labels but for one each."""
    locals_between = "".join(f"int u{k} = 0; int{{P{k}: P{255 - k}}} y{k} = 0; u{k} = y{k};\n" for k in range(40))
    first, place = f"void main() {{\nint u = 0;\n{locals_between}", lambda n: f"P255:; {one_policy(n)}"
    found = pieces(
        size - len(first) - 1000,
        lambda n: (f"int{{{small_policy(n)}}} x{n} = 0; u = x{n};\n", f"int{{{place(n)}}} z{n} = u{n % 40};\n"),
    )
    copies = "".join(f"u{k} = u;\n" for k in range(40))
    return chain(256), first + joined(found) + copies + joined(found, 1) + "}\n"


def named_labels_to_many_places(size):
    """The same where each label on the left names a local too."""
    first = "void main() {\nint{P3:} g = 0; int u = 0;\n"
    return to_many_places(size, first, lambda n: f"g; {small_policy(n)}", lambda n: f"P255:; {one_policy(n)}")


def many_labels_to_places_with_a_long_label(size):
    """The same where each place has a long label by the name of a global, and a policy beside it."""
    first = f"global int{{P255:; {policies(size // 3)[1:-1]}}} g = 1;\nvoid main() {{\nint u = 0;\n"
    return to_many_places(size, first, small_policy, lambda n: f"g; {one_policy(n)}")


def many_labels_to_places_along_names(size):
    """The same where each place has the label of the one before and a policy more."""
    first = "void main() {\nint u = 0;\n"
    found = pieces(
        size - len(first) - 40,
        lambda n: (f"int{{{small_policy(n)}}} x{n} = 0; u = x{n};\n", f"int{{z{n}; {one_policy(n)}}} z{n + 1} = u;\n"),
    )
    return chain(256), first + joined(found) + "int{P255:} z0 = 0;\n" + joined(found, 1) + "}\n"


def labels_along_names_to_many_places(size):
    """The same where each label on the left is that of the local before and a policy more."""
    first = "void main() {\nint{P3:} a0 = 0; int u = 0;\n"
    found = pieces(
        size - len(first) - 20,
        lambda n: (
            f"int{{a{n}; {small_policy(n)}}} a{n + 1} = 0; u = a{n};\n",
            f"int{{P255:; {one_policy(n)}}} z{n} = u;\n",
        ),
    )
    return chain(256), first + joined(found) + joined(found, 1) + "}\n"


def growing_left_sides_to_many_places(size):
    """The same with a chain of them, each with a label more than the one before it, and each copied to a place of its own."""
    found = pieces(
        size - 40,
        lambda n: (
            f"int{{{small_policy(n)}}} x{n} = 0; int u{n} = x{n};" + (f" u{n} = u{n - 1};\n" if n else "\n"),
            f"int{{P255:; {one_policy(n)}}} z{n} = u{n};\n",
        ),
    )
    return chain(256), "void main() {\n" + joined(found) + joined(found, 1) + "}\n"


def long_places_in_turn(size):
    """Many locals with labels of their own that are sent to two channels in turn, both with long labels."""
    one, other = policies(size // 4)[1:-1], policies(size // 4, 1 << 20)[1:-1]
    head = f"output{{P255:; {one}}} p;\noutput{{P255:; {other}}} q;\nvoid main() {{\n"
    found = pieces(size - len(head) - 2, lambda n: (f"int{{{small_policy(n)}}} x{n} = 0; send p, x{n}; send q, x{n};\n",))
    return chain(256), head + joined(found) + "}\n"


def flows_along_names(size):
    """A chain of locals, each with the label of the one before and one policy more, that are copied along it."""
    head = f"void main() {{\nint{policies(size // 3)} a0 = 1;\n"
    found = pieces(size - len(head) - 2, lambda n: (f"int{{a{n}; {one_policy(n)}}} a{n + 1} = a{n};\n",))
    return flat(256), head + joined(found) + "}\n"


def all_names_flow_to_the_last(size):
    """The same chain without the copies, of which each local is copied to one with the label of the last."""
    head = "void main() {\nint{} a0 = 1;\n"
    found = pieces(
        size - len(head) - 40, lambda n: (f"int{{a{n}; {one_policy(n)}}} a{n + 1} = 0;\n", f"z = a{n};\n")
    )
    return flat(256), head + joined(found) + f"int{{a{len(found)}}} z = 0;\n" + joined(found, 1) + "}\n"


def declared(size):
    """Exceptions for a third of a source: their declarations, and the names with labels that stand behind `throws`."""
    found = pieces(size // 3, lambda n: (f"exception e{n};\n", f", e{n}{{}}"))
    return joined(found), joined(found, 1)[2:], len(found)


def exceptions_of_calls(size):
    """A procedure that declares many exceptions and is called again and again."""
    declarations, thrown, _ = declared(size)
    head = declarations + f"void f() throws ({thrown}) {{ }}\nvoid main() throws ({thrown}) {{\n"
    return flat(2), filled(head, "f();\n", "}\n", size)


def exceptions_of_calls_at_many_labels(size):
    """The same with each call at a program-counter label of its own."""
    declarations, thrown, _ = declared(size)
    head = declarations + f"void f() throws ({thrown}) {{ }}\nvoid main() throws ({thrown}) {{\n"
    found = pieces(
        size - len(head) - 10, lambda n: (f"int{{P{n % 256}: P{n // 256 % 256}}} x{n} = 0; if (x{n} > 0) {{ f(); }}\n",)
    )
    return flat(256), head + joined(found) + "}\n"


def exceptions_of_calls_in_tries(size):
    """The same with each call in a `try` that catches one of the exceptions."""
    declarations, thrown, count = declared(size)
    head = declarations + f"void f() throws ({thrown}) {{ }}\nvoid main() throws ({thrown}) {{\n"
    found = pieces(size - len(head) - 10, lambda n: (f"try {{ f(); }} catch (e{n % count}) {{ }}\n",))
    return flat(2), head + joined(found) + "}\n"


def exceptions_handed_on(size):
    """Procedures of which each calls the one before it and hands its exceptions on."""
    found = pieces(size // 60, lambda n: (f"exception e{n};\n", f", e{n}{{}}"))
    declarations, thrown = joined(found), joined(found, 1)[2:]
    first = declarations + f"void f0() throws ({thrown}) {{ }}\n"
    line = f" throws ({thrown}) {{ f"
    rest = pieces(size - len(first) - 200, lambda n: (f"void f{n + 1}(){line}{n}(); }}\n",))
    return flat(2), first + joined(rest) + "void main() { }\n"


def callees_in_tries(size, declares, call="{}();", reorder=None, each=12):
    """Procedures and as many exceptions, which those declare by a test, and tries that each call all of them and catch half of the
    exceptions. Calls stand in the order of the procedures, or in what is made of it for each try. About so many bytes of the source go
    to each pair of a procedure and an exception."""
    count = int((size / each) ** 0.5)
    names, order = [f"e{n}" for n in range(count)], list(range(count))

    def thrown(number):
        return ", ".join(f"{name}{{}}" for n, name in enumerate(names) if declares(number, n))

    everything = ", ".join(f"{name}{{}}" for name in names)
    head = "".join(f"exception {name};\n" for name in names)
    head += "".join(f"void f{n}() throws ({thrown(n)}) {{ }}\n" for n in range(count))
    head += f"void main() throws ({everything}) {{\nint x = 1;\n"
    caught = " ".join(f"catch ({name}) {{ }}" for name in names[::2])

    def one_try(_):
        if reorder:
            reorder(order)
        return (f"try {{ {' '.join(call.format(f'f{n}') for n in order)} }} {caught}\n",)

    return flat(2), head + joined(pieces(size - len(head) - 2, one_try)) + "}\n"


def exceptions_of_many_callees(size):
    """As many procedures as exceptions, each of which declares all of them, all called in tries that each catch half of them."""
    return callees_in_tries(size, lambda procedure, exception: True)


def exceptions_of_uneven_callees(size):
    """The same where each procedure leaves out one exception, so that no two exceptions come from the same procedures."""
    return callees_in_tries(size, lambda procedure, exception: procedure != exception)


def exceptions_of_callees_in_any_order(size):
    """The same with the calls of each try in an order of its own."""
    return callees_in_tries(size, lambda procedure, exception: procedure != exception, reorder=random.Random(1).shuffle)


def exceptions_of_callees_by_halves(size):
    """The same where each procedure declares a half of the exceptions by chance."""
    chance = random.Random(1)
    return callees_in_tries(size, lambda procedure, exception: chance.random() < 0.5, reorder=chance.shuffle, each=9)


def exceptions_of_callees_called_twice(size):
    """The same with two calls of each procedure in each try."""
    return callees_in_tries(size, lambda procedure, exception: procedure != exception, call="{0}(); {0}();", each=14)


def exceptions_of_calls_that_return(size):
    """The same with each call in a branch that returns, so that no call's label flows on to that of another one."""
    return callees_in_tries(size, lambda procedure, exception: procedure != exception, call="if (x > 0) {{ {}(); return; }}", each=20)


# Each shape, with the most that it may take of the benign source's time at 1 MiB, and the most bytes of memory that it may take for
# each byte of the source beyond those of the benign one.
SHAPES = [
    (one_long_label, 5, 400),
    (two_long_labels, 5, 400),
    (nearly_equal_long_labels, 5, 400),
    (many_readers, 5, 400),
    (many_labels, 5, 400),
    (sets_of_labels_one_after_another, 20, 20),
    (many_labels_to_one_channel, 5, 400),
    (long_names, 5, 400),
    (many_names, 5, 400),
    (open_comments, 5, 400),
    (many_refused_flows, 5, 400),
    (labels_around_a_cycle, 6, 400),
    (copies_backwards, 5, 400),
    (labels_along_a_backward_chain, 5, 400),
    (long_label_named_again, 20, 40),
    (long_label_along_names, 20, 40),
    (long_label_beside_policies, 20, 40),
    (one_policy_more_each, 20, 40),
    (long_label_named_everywhere, 20, 40),
    (half_of_a_long_label_flows, 20, 40),
    (halves_of_two_long_labels_flow, 20, 40),
    (many_labels_to_many_places, 20, 400),
    (pairs_of_policies_to_many_places, 20, 400),
    (many_labels_to_places_with_many_readers, 20, 400),
    (left_sides_in_turn, 20, 400),
    (three_left_sides_in_turn, 20, 400),
    (nearly_equal_left_sides_in_turn, 20, 400),
    (named_labels_to_many_places, 20, 400),
    (many_labels_to_places_with_a_long_label, 20, 400),
    (many_labels_to_places_along_names, 20, 40),
    (labels_along_names_to_many_places, 20, 400),
    (growing_left_sides_to_many_places, 20, 400),
    (long_places_in_turn, 20, 400),
    (flows_along_names, 20, 400),
    (all_names_flow_to_the_last, 20, 40),
    (exceptions_of_calls, 20, 400),
    (exceptions_of_calls_at_many_labels, 20, 20),
    (exceptions_of_calls_in_tries, 20, 40),
    (exceptions_handed_on, 20, 400),
    (exceptions_of_many_callees, 20, 20),
    (exceptions_of_uneven_callees, 20, 20),
    (exceptions_of_callees_in_any_order, 20, 20),
    (exceptions_of_callees_by_halves, 20, 50),
    (exceptions_of_callees_called_twice, 20, 40),
    (exceptions_of_calls_that_return, 20, 60),
]


def measured(program, folder, hierarchy, source):
    """The least time of the processor that a check takes, and the most memory in MB; or none where it was cut off."""
    (folder / "h").write_text(hierarchy)
    (folder / "s").write_text(source)
    least, most = None, 0
    for _ in range(ROUNDS):
        start = time.perf_counter()
        ran = subprocess.Popen(
            [program, "check", str(folder / "h"), str(folder / "s")], stdout=subprocess.DEVNULL, stderr=subprocess.DEVNULL
        )
        while ran.returncode is None:
            number, status, used = os.wait4(ran.pid, os.WNOHANG)
            if number:
                ran.returncode = os.waitstatus_to_exitcode(status)
                most = max(most, used.ru_maxrss // 1024)
                took = used.ru_utime + used.ru_stime
            elif time.perf_counter() - start > LIMIT:
                ran.kill()
                ran.wait()
                return None
            else:
                time.sleep(0.0005)
        least = took if least is None else min(least, took)
    return least, most


def judged(program, folder, kib, base, shape, bounds, before):
    """The line of a shape, and whether it keeps its bounds. What the benign source of the size takes is the base."""
    hierarchy, source = shape(kib << 10)
    found = measured(program, folder, hierarchy, source)
    if found is None:
        return f"{kib} KiB {shape.__name__}: cut off after {LIMIT} s, TOO SLOW", False
    took, most = found
    growth = larger = ""
    doubled = 0
    if shape in before:
        doubled = most / before[shape][1]
        growth = f", {took / before[shape][0]:.1f} times half the size"
        larger = f", {doubled:.2f} times half the size"
    before[shape] = took, most
    more = max(0, most - base[1]) / kib * 1024
    marks = (", TOO SLOW" if took > bounds[0] * base[0] else "") + (", TOO LARGE" if more > bounds[1] or doubled > DOUBLED else "")
    times = f"{took:.3f} s, {took / base[0]:.1f} times the benign one{growth}"
    return f"{kib} KiB {shape.__name__}: {times}, {most} MB{larger}, {more:.0f} bytes a byte more{marks}", not marks


def main(words):
    if not words:
        sys.exit(__doc__)
    sizes = [int(word) for word in words[1:]] or SIZES
    kept = True
    with tempfile.TemporaryDirectory() as name:
        folder, before = Path(name), {}
        for kib in sizes:
            base = measured(words[0], folder, *benign(kib << 10))
            print(f"{kib} KiB benign: {base[0]:.3f} s, {base[1]} MB")
            for shape, *bounds in SHAPES:
                line, keeps = judged(words[0], folder, kib, base, shape, bounds, before)
                kept = kept and keeps
                print(line, flush=True)
    return 0 if kept else 1


if __name__ == "__main__":
    sys.exit(main(sys.argv[1:]))
