#!/usr/bin/env python3
"""Times of circuits with many signals: how long a net takes to build, and how fast it runs.

    bench/nets.py [PROGRAM]

The circuits are a chain of 1,000, 10,000 and 60,000 nodes; a pipeline of 60 registers of 16 bits; and, refused, a chain
of 1,000, 10,000 and 60,000 nodes between two loops, all of whose numbers are below those of the loops. A test pokes the
first input, makes a step and peeks at an output, again and again. PROGRAM is the proved program,
crates/threadbench/out/threadbench if not given. The build is a run with an empty test; what a run of the smallest
circuit costs is taken off. Growth is the ratio of what a signal costs, from one size to the next: it is linear where
that is near 1.
"""
import os
import sys
import tempfile

from first_path import TOP, peak_memory, processor_time

SIZES = (1_000, 10_000, 60_000)
PART = 100
REGISTERS = 60
SIGNALS_TO_SETTLE = 30_000_000
TEST_BYTES = 262_144


def part():
    """A module whose signals are a chain of PART: an input, nodes and an output."""
    lines = ['  module Part :', '    input i : UInt<16>', '    output o : UInt<16>', '    node n1 = tail(add(i, UInt<16>(1)), 1)']
    lines += [f'    node n{k} = tail(add(n{k - 1}, UInt<16>({k})), 1)' for k in range(2, PART - 1)]
    return lines + [f'    connect o, n{PART - 2}']


def chain(size):
    count = size // PART
    lines = ['circuit Chain :', '  module Chain :', '    input clock : Clock', '    input i0 : UInt<16>', '    output o0 : UInt<16>']
    lines += [f'    inst c{k} of Part' for k in range(count)] + ['    connect c0.i, i0']
    lines += [f'    connect c{k}.i, c{k - 1}.o' for k in range(1, count)] + [f'    connect o0, c{count - 1}.o']
    return '\n'.join(lines + part()) + '\n'


def loops(size):
    """The first of the chain reads a loop of two, and the last is read by another."""
    count = size // PART
    lines = ['circuit Loops :', '  module Loops :', '    input clock : Clock', '    output o0 : UInt<16>']
    lines += [f'    inst c{k} of Part' for k in range(count)] + [f'    wire {name} : UInt<16>' for name in 'abcd']
    lines += ['    connect c0.i, a'] + [f'    connect c{k}.i, c{k - 1}.o' for k in range(1, count)]
    lines += ['    connect a, b', '    connect b, a', f'    connect c, xor(d, c{count - 1}.o)', '    connect d, c', '    connect o0, d']
    return '\n'.join(lines + part()) + '\n'


def pipeline(count):
    each = range(count)
    lines = ['circuit Gen :', '  module Gen :', '    input clock : Clock']
    lines += [f'    input i{k} : UInt<16>' for k in each] + [f'    output o{k} : UInt<16>' for k in each]
    lines += [f'    reg r{k} : UInt<16>, clock' for k in each] + ['    connect r0, tail(add(r0, i0), 1)']
    lines += [f'    connect r{k}, tail(add(r{k - 1}, i{k}), 1)' for k in each if k] + [f'    connect o{k}, r{k}' for k in each]
    return '\n'.join(lines) + '\n'


def cycles(output, signals):
    """A test of as many cycles as settle SIGNALS_TO_SETTLE signals, or as fit, and their number."""
    out, length = [], 0
    for k in range(SIGNALS_TO_SETTLE // signals):
        text = f'poke i0 = {k % 65536};\nstep 1;\npeek {output};\n'
        length += len(text)
        if length > TEST_BYTES:
            break
        out.append(text)
    return ''.join(out), len(out)


def main():
    program = sys.argv[1] if len(sys.argv) > 1 else os.path.join(TOP, 'crates/threadbench/out/threadbench')
    with tempfile.TemporaryDirectory() as folder:
        words = ['run', os.path.join(folder, 'c.fir'), os.path.join(folder, 't.test')]

        def measured(circuit, test):
            for name, text in zip(words[1:], (circuit, test)):
                with open(name, 'w') as file:
                    file.write(text)
            taken, status = processor_time(program, words, 3)
            return taken, peak_memory(program, words), status

        idle, least, _ = measured('circuit S :\n  module S :\n    input a : UInt<1>\n', '')
        print(f'smallest circuit          {idle:9.2f} ms {least:8d} KiB')
        for title, shape, sizes, output in (('chain', chain, SIZES, 'o0'), ('pipeline', pipeline, (REGISTERS,), f'o{REGISTERS - 1}'), ('loops', loops, SIZES, None)):
            earlier = None
            for size in sizes:
                circuit = shape(size)
                signals = 3 * size if shape is pipeline else size
                taken, memory, status = measured(circuit, '')
                build = taken - idle
                row = f'{title:9} {signals:6d} signals status {status} build {build:9.2f} ms {memory:8d} KiB'
                costs = [build / signals, max(memory - least, 1) / signals]
                if output:
                    test, count = cycles(output, signals)
                    taken, memory, status = measured(circuit, test)
                    seconds = max(taken - idle - build, 0.01) / 1e3
                    row += f'   {count} cycles status {status} {memory:8d} KiB {count / seconds:9.0f} cycles/s {count * signals / seconds / 1e6:6.1f} M signals/s'
                    costs.append(seconds / count / signals)
                if earlier:
                    names = ('build', 'memory', 'cycle')
                    row += '   growth: ' + ', '.join(f'{name} {now / then:.2f}' for name, now, then in zip(names, costs, earlier))
                print(row, flush=True)
                earlier = costs


if __name__ == '__main__':
    main()
