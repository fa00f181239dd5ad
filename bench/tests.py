#!/usr/bin/env python3
"""Processor time and peak memory of `run` over test texts of six shapes and three sizes.

    bench/tests.py [PROGRAM]

The shapes are pokes and expects of numbers, nested blocks, long expressions, many variables and nested forks, which are run, and drivers
with lists, which are read and judged by the rules and then refused, since they aren't in the first form. The sizes are a quarter,
a half and the whole of a test's limit. PROGRAM is the proved program, crates/threadbench/out/threadbench if not given. What a run with
an empty test costs is measured too and taken off. Growth is the ratio of what a byte of text costs, from one size to the next: it is
linear where that is near 1.
"""
import os
import sys
import tempfile

from circuits import filled
from first_path import TOP, measured

SIZES = (65_536, 131_072, 262_144)
BLOCKS, FORKS, OPERATORS, NAMES = 30, 8, 60, 250

CIRCUIT = """circuit P :
  module P :
    input a : UInt<8>
    input flip_in : { flip ready : UInt<1>, valid : UInt<1>, bits : UInt<8> }
    output out : UInt<8>
    connect out, a
    connect flip_in.ready, UInt<1>(1)
"""


def numbers(size):
    return filled('', lambda k: f'poke a = {k % 256}; expect out == {k % 256};\n', '', size)


def blocks(size):
    """Blocks in each other, as deep as BLOCKS, again and again."""
    def nest(k):
        lines = [f'let x{k % NAMES} = {k};']
        lines += [f'if x{k % NAMES} < {depth} {{' for depth in range(BLOCKS)]
        lines += ['poke a = 1;', '}' * BLOCKS]
        return ' '.join(lines) + '\n'
    return filled('', nest, '', size)


def expressions(size):
    def let(k):
        return f'let x = {k} ' + ' '.join(f'{"+-*&|^"[j % 6]} {j}' for j in range(OPERATORS)) + ';\n'
    return filled('', let, '', size)


def variables(size):
    head = ''.join(f'let a_variable_with_a_long_name_{k} = {k};\n' for k in range(NAMES))
    return filled(head, lambda k: f'set a_variable_with_a_long_name_{k * 7 % NAMES} = a_variable_with_a_long_name_{k * 11 % NAMES} + 1;\n', '', size)


def forks(size):
    def nest(k):
        heads = ' '.join(f'fork h{depth} {{' for depth in range(FORKS))
        return heads + ' poke a = 1; ' + ' '.join(f'}} join h{depth};' for depth in reversed(range(FORKS))) + '\n'
    return filled('', nest, '', size)


def drivers(size):
    values = ', '.join(str(k % 256) for k in range(100))
    return filled('', lambda k: f'enqueueSeq flip_in [{values}];\n', '', size)


SHAPES = (('numbers', numbers), ('blocks', blocks), ('expressions', expressions), ('variables', variables), ('forks', forks), ('drivers', drivers))


def main():
    program = sys.argv[1] if len(sys.argv) > 1 else os.path.join(TOP, 'crates/threadbench/out/threadbench')
    with tempfile.TemporaryDirectory() as folder:
        idle, least, _ = measured(program, folder, CIRCUIT, '')
        print(f'an empty test  {idle:8.2f} ms {least:8d} KiB')
        for title, shape in SHAPES:
            earlier = None
            for size in SIZES:
                text = shape(size)
                taken, memory, status = measured(program, folder, CIRCUIT, text)
                work, held = taken - idle, memory - least
                row = f'{title:12} {len(text):7d} bytes status {status} {taken:8.2f} ms {memory:8d} KiB {len(text) / 1e3 / work:7.1f} MB/s {held * 1024 / len(text):6.1f} bytes of memory a byte'
                if earlier:
                    row += f'   growth a byte: time {work / len(text) / earlier[0]:.2f}, memory {held / len(text) / earlier[1]:.2f}'
                print(row)
                earlier = (work / len(text), max(held, 1) / len(text))


if __name__ == '__main__':
    main()
