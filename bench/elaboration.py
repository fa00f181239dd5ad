#!/usr/bin/env python3
"""Processor time and peak memory of the elaboration of circuits near its limits.

    bench/elaboration.py [PROGRAM [COMMAND]]

Each shape is made at a quarter, a half and the whole of what the limits and a text of 1 MiB allow: 65,000 signals as wires
and nodes of aggregates; 24,000 fields of one bundle, each connected; 4,000,000 parts, as connects of a vector of bundles
and as instances of an empty module; a chain of 20,000 modules, the main module first in the text or last; 60,000
signals without written widths in a chain; 20,000 uses of an instance's ports, of the fields of a node and of those of a
bundle inside another; and 28,000 connects of a bundle of 28,000 fields, which pass the limit of parts. COMMAND is the command that takes the circuit's file, `check` if not given. PROGRAM is the proved program,
crates/threadbench/out/threadbench if not given. What a run of the smallest circuit costs is measured too and taken off.
Growth is the ratio of what one unit costs, from one size to the next: it is linear where that is near 1.
"""
import os
import sys
import tempfile

from first_path import TOP, peak_memory, processor_time

SMALLEST = 'circuit S :\n  module S :\n    input a : UInt<1>\n'


def circuit(name, lines):
    return f'circuit {name} :\n  module {name} :\n' + ''.join(f'    {line}\n' for line in lines)


def wires(count):
    """Wires and nodes of ten signals each."""
    lines = ['input a : UInt<8>']
    for k in range(count // 20):
        lines += [f'wire w{k} : UInt<8>[10]', f'invalidate w{k}', f'node n{k} = w{k}']
    return circuit('W', lines)


def wide_bundle(count):
    """One wire with a field for each signal, and a connect of each field."""
    fields = ', '.join(f'f{k} : UInt<8>' for k in range(count))
    lines = ['input a : UInt<8>', f'wire w : {{ {fields} }}']
    return circuit('B', lines + [f'connect w.f{k}, a' for k in range(count)])


def whole_connects(count):
    """Two wires of 1,024 bundles of two fields, connected whole again and again: 2,048 connects at a time of three parts."""
    kind = '{ a : UInt<8>, flip b : UInt<8> }[1024]'
    lines = [f'wire v : {kind}', f'wire w : {kind}']
    return circuit('V', lines + ['connect v, w'] * ((count - 4096) // 4096))


def many_instances(count):
    """Modules that each hold the next twice, over an empty one."""
    depth = count.bit_length() - 1
    text = ['circuit M0 :\n']
    for k in range(depth):
        text += [f'  module M{k} :\n    inst a of M{k + 1}\n    inst b of M{k + 1}\n']
    return ''.join(text) + f'  module M{depth} :\n    skip\n'


def chain(count, main_first):
    modules = [f'  module M{k} :\n' + (f'    inst q of M{k + 1}\n' if k + 1 < count else '    skip\n') for k in range(count)]
    return 'circuit M0 :\n' + ''.join(modules if main_first else reversed(modules))


def unwidthed_nodes(count):
    """Instances one behind the other, each with a hundred nodes one behind the other."""
    nodes = ['node n0 = not(i)'] + [f'node n{k} = not(n{k - 1})' for k in range(1, 100)]
    lines = ['input i : UInt', 'output o : UInt'] + nodes + ['connect o, n99']
    text = circuit('N', ['input a : UInt<1>', 'inst q0 of C', 'connect q0.i, a'] + [
        line for k in range(1, count // 102) for line in (f'inst q{k} of C', f'connect q{k}.i, q{k - 1}.o')])
    return text + '  module C :\n' + ''.join(f'    {line}\n' for line in lines)


def fields_of_bundle(count):
    return ', '.join(f'f{k} : UInt<1>' for k in range(count))


def port_uses(count):
    """An instance with many ports, each connected."""
    lines = ['input a : UInt<1>', 'inst q of C'] + [f'connect q.p{k}, a' for k in range(count)]
    return circuit('I', lines) + '  module C :\n' + ''.join(f'    input p{k} : UInt<1>\n' for k in range(count))


def node_uses(count):
    """A node of a bundle with many fields, each used."""
    lines = ['input a : UInt<1>', f'wire w : {{ {fields_of_bundle(count)} }}', 'invalidate w', 'node n = w', 'wire x : UInt<1>']
    return circuit('N', lines + [f'connect x, n.f{k}' for k in range(count)])


def nested_uses(count):
    """A bundle with many fields in another bundle, each connected."""
    lines = ['input a : UInt<1>', f'wire w : {{ i : {{ {fields_of_bundle(count)} }} }}']
    return circuit('D', lines + [f'connect w.i.f{k}, a' for k in range(count)])


def wide_connects(count):
    """A wide bundle connected whole again and again, which is refused for too many parts."""
    return circuit('R', [f'wire b : {{ {fields_of_bundle(count)} }}'] + ['connect b, b'] * count)


SHAPES = (
    ('wires and nodes', 'signals', 65_000, wires),
    ('one wide bundle', 'signals', 24_000, wide_bundle),
    ('connects of wholes', 'parts', 4_000_000, whole_connects),
    ('empty instances', 'parts', 4_000_000, many_instances),
    ('chain, main first', 'modules', 20_000, lambda count: chain(count, True)),
    ('chain, main last', 'modules', 20_000, lambda count: chain(count, False)),
    ('nodes in a chain', 'signals', 60_000, unwidthed_nodes),
    ('uses of ports', 'ports', 20_000, port_uses),
    ('uses of a node', 'fields', 20_000, node_uses),
    ('uses inside', 'fields', 20_000, nested_uses),
    ('wide connects', 'connects', 28_000, wide_connects),
)


def main():
    program = sys.argv[1] if len(sys.argv) > 1 else os.path.join(TOP, 'crates/threadbench/out/threadbench')
    command = sys.argv[2] if len(sys.argv) > 2 else 'check'
    with tempfile.TemporaryDirectory() as folder:
        file_name = os.path.join(folder, 'c.fir')

        def measured(text):
            with open(file_name, 'w') as file:
                file.write(text)
            taken, status = processor_time(program, [command, file_name])
            return taken, peak_memory(program, [command, file_name]), status

        idle, least, _ = measured(SMALLEST)
        print(f'{command}: smallest circuit {idle:.2f} ms {least} KiB')
        for title, unit, whole, shape in SHAPES:
            earlier = None
            for count in (whole // 4, whole // 2, whole):
                text = shape(count)
                taken, memory, status = measured(text)
                work, held = max(taken - idle, 0.01) / count, max(memory - least, 1) / count
                row = f'{title:18} {count:8d} {unit:8} {len(text):8d} bytes status {status} {taken:10.2f} ms {memory:8d} KiB'
                if earlier:
                    row += f'   growth a unit: time {work / earlier[0]:.2f}, memory {held / earlier[1]:.2f}'
                print(row, flush=True)
                earlier = (work, held)


if __name__ == '__main__':
    main()
