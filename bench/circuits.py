#!/usr/bin/env python3
"""Processor time and peak memory of `fmt` and of the rules over circuits of six shapes and three sizes.

    bench/circuits.py [PROGRAM]

The shapes are many modules, one deep block, wide bundles and vectors, long expressions, uses of the fields of one large
bundle, and connects of one large bundle as a whole; the sizes are 64 KiB, 256 KiB and 1 MiB. `fmt` reads and prints a circuit; `run` reads it and judges its rules, and then refuses it, since none of
these is in the first form. PROGRAM is the proved program, crates/threadbench/out/threadbench if not given. What a run
of the smallest circuit costs is measured too and taken off. Growth is the ratio of what a byte of text costs, from one size to
the next: it is linear where that is near 1.
"""
import os
import sys
import tempfile

from first_path import TOP, peak_memory, processor_time

SIZES = (65_536, 262_144, 1_048_576)
DEPTH = 200


def filled(head, item, tail, size):
    """The head, as many items as fit, and the tail. `item` makes the lines of the k-th item."""
    out, length, k = [head], len(head) + len(tail), 0
    while True:
        text = item(k)
        if length + len(text) > size:
            return ''.join(out) + tail
        out.append(text)
        length += len(text)
        k += 1


def many_modules(size):
    def module(k):
        lines = [f'  module M{k} :', '    input clock : Clock', '    input a : UInt<8>', '    output b : UInt<9>']
        if k == 0:
            lines += ['    connect b, add(a, a)']
        else:
            lines += [f'    inst q of M{k - 1}', '    connect q.clock, clock', '    connect q.a, a', '    connect b, q.b']
        return '\n'.join(lines) + '\n'
    return filled('circuit M0 :\n', module, '', size)


def deep_block(size):
    """Blocks of `when` in each other, as deep as DEPTH, with connects at each depth, again and again."""
    def nest(k):
        lines = []
        for depth in range(DEPTH):
            indent = '    ' + ' ' * depth
            lines += [f'{indent}connect w, a', f'{indent}when a :']
        lines.append('    ' + ' ' * DEPTH + 'connect w, a')
        return '\n'.join(lines) + '\n'
    head = 'circuit D :\n  module D :\n    input a : UInt<1>\n    output o : UInt<1>\n    wire w : UInt<1>\n    connect o, w\n'
    return filled(head, nest, '', size)


def wide_types(size):
    """Bundles of 64 fields and vectors, with a connect of each whole and of one of its fields."""
    fields = ', '.join(f'{"flip " if k % 2 else ""}field{k} : UInt<{k % 64 + 1}>[4]' for k in range(64))

    def port(k):
        return f'    wire w{k} : {{ {fields} }}[3]\n    wire v{k} : {{ {fields} }}[3]\n    connect w{k}[1], v{k}[2]\n    connect w{k}[0].field2[1], v{k}[0].field4[0]\n'
    return filled('circuit W :\n  module W :\n    input a : UInt<1>\n', port, '', size)


def long_expressions(size):
    def connect(k):
        value = 'a'
        for depth in range(30):
            value = f'bits(add({value}, UInt<8>(0h{depth:x})), 7, 0)'
        return f'    node n{k} = {value}\n'
    return filled('circuit E :\n  module E :\n    input a : UInt<8>\n', connect, '', size)


def large_bundle(size):
    """The text of a bundle of about this size, and the number of its fields."""
    fields, length = [], 0
    while length < size:
        fields.append(f'f{len(fields)} : UInt<8>')
        length += len(fields[-1]) + 2
    return '{ ' + ', '.join(fields) + ' }', len(fields)


BROKEN = '    connect a, a\n'


def uses_of_fields(size):
    """A bundle that takes half of the text, and connects of its fields. The last line breaks a rule, so `run` ends with the rules."""
    bundle, count = large_bundle(size // 2)
    head = f'circuit F :\n  module F :\n    input a : UInt<8>\n    wire w : {bundle}\n'
    return filled(head, lambda k: f'    connect w.f{k * 7919 % count}, a\n', BROKEN, size)


def whole_connects(size):
    """Two wires of a bundle that take half of the text, a node of the bundle, and connects of these as a whole. The last line breaks a
    rule, so `run` ends with the rules."""
    bundle, _ = large_bundle(size // 4)
    head = f'circuit C :\n  module C :\n    input a : UInt<8>\n    wire v : {bundle}\n    wire w : {bundle}\n    node n = v\n'
    return filled(head, lambda k: f'    connect w, {"vn"[k % 2]}\n', BROKEN, size)


SHAPES = (('many modules', many_modules), ('deep blocks', deep_block), ('wide types', wide_types), ('long expressions', long_expressions),
          ('uses of fields', uses_of_fields), ('whole connects', whole_connects))


def main():
    program = sys.argv[1] if len(sys.argv) > 1 else os.path.join(TOP, 'crates/threadbench/out/threadbench')
    with tempfile.TemporaryDirectory() as folder:
        circuit, test = os.path.join(folder, 'c.fir'), os.path.join(folder, 't.test')
        open(test, 'w').close()

        def measured(text, words):
            with open(circuit, 'w') as file:
                file.write(text)
            taken, status = processor_time(program, words)
            return taken, peak_memory(program, words), status

        for command, words in (('fmt', ['fmt', circuit]), ('run', ['run', circuit, test])):
            idle, least, _ = measured('circuit S :\n  module S :\n    input a : UInt<1>\n', words)
            print(f'{command:4} smallest circuit          {idle:8.2f} ms {least:8d} KiB')
            for title, shape in SHAPES:
                earlier = None
                for size in SIZES:
                    text = shape(size)
                    taken, memory, status = measured(text, words)
                    work, held = taken - idle, memory - least
                    rate = len(text) / 1e6 / (work / 1e3)
                    row = f'{command:4} {title:17} {len(text):8d} bytes status {status} {taken:8.2f} ms {memory:8d} KiB {rate:7.1f} MB/s {held * 1024 / len(text):6.1f} bytes of memory a byte'
                    if earlier:
                        row += f'   growth a byte: time {work / len(text) / earlier[0]:.2f}, memory {held / len(text) / earlier[1]:.2f}'
                    print(row)
                    earlier = (work / len(text), max(held, 1) / len(text))


if __name__ == '__main__':
    main()
