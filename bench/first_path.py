#!/usr/bin/env python3
"""Processor time and peak memory of a run over texts near their limits, at a quarter, a half and the whole.

    bench/first_path.py [PROGRAM]

The circuit has 200 ports and is filled up with blank and long lines; the test is a list of pokes, peeks, expects and
steps. PROGRAM is the proved program, crates/threadbench/out/threadbench if not given. What one run of the smallest
texts costs is measured too and taken off, so that the ratios are those of the work on the texts. Growth is linear where
each ratio is near 2.
"""
import os
import sys
import tempfile
import time

TOP = os.path.dirname(os.path.dirname(os.path.abspath(__file__)))
PORTS = 200
CIRCUIT_BYTES = 1_048_576
TEST_BYTES = 262_000
ROUNDS = 15


def circuit(size):
    """A circuit in the first form of exactly `size` bytes."""
    inputs = PORTS // 2
    lines = ['circuit Wide :', '  module Wide :']
    lines += [f'    input i{k} : UInt<16>' for k in range(inputs)]
    lines += [f'    output o{k} : UInt<17>' for k in range(inputs)]
    lines += [f'    connect o{k}, add(i{k}, i{(k + 1) % inputs})' for k in range(inputs)]
    text = '\n'.join(lines) + '\n'
    spare = size - len(text)
    assert spare >= 0
    # Half of the rest goes into spaces between the tokens of the connects, half into blank lines.
    gap = ' ' * (spare // 2 // inputs)
    text = text.replace(', add(', ',' + gap + ' add(')
    spare = size - len(text)
    blank = (' ' * 63 + '\n') * (spare // 64)
    return text + blank + '\n' * (spare - len(blank))


def test(size):
    """A test in the first form of at most `size` bytes, and near it."""
    out, length, k = [], 0, 0
    while True:
        port = k % (PORTS // 2)
        line = [f'poke i{port} = {k % 65536};', f'peek o{port};', f'expect i{port} == {k % 65536};', 'step 1;'][k % 4]
        if k % 4 == 2:
            line = f'expect i{(k - 2) % (PORTS // 2)} == {(k - 2) % 65536};'
        if length + len(line) + 1 > size:
            return '\n'.join(out) + '\n'
        out.append(line)
        length += len(line) + 1
        k += 1


def spawned(program, words, output):
    """A command of the program, begun, with its standard output on a file descriptor."""
    return os.posix_spawn(program, [program] + words, os.environ,
                          file_actions=[(os.POSIX_SPAWN_DUP2, output, 1)])


def processor_time(program, words, rounds=ROUNDS):
    """The least processor time of some runs in milliseconds, and the status of the last."""
    best, status = None, None
    with open(os.devnull, 'w') as sink:
        for _ in range(rounds):
            child = spawned(program, words, sink.fileno())
            _, status, usage = os.wait4(child, 0)
            taken = (usage.ru_utime + usage.ru_stime) * 1000
            best = taken if best is None else min(best, taken)
    return best, os.waitstatus_to_exitcode(status)


def is_asleep(child):
    with open(f'/proc/{child}/stat') as file:
        return file.read().rpartition(')')[2].split()[0] == 'S'


def peak_memory(program, words):
    """The greatest resident memory of a run in KiB.

    The run writes into a full pipe, so that it sleeps at its first write, when all that it makes has been made.
    """
    end, start = os.pipe()
    os.set_blocking(start, False)
    try:
        while True:
            os.write(start, bytes(4096))
    except BlockingIOError:
        os.set_blocking(start, True)
    child = spawned(program, words, start)
    os.close(start)
    seen = 0
    while seen < 5:
        time.sleep(0.005)
        seen = seen + 1 if is_asleep(child) else 0
    with open(f'/proc/{child}/status') as file:
        memory = next(int(line.split()[1]) for line in file if line.startswith('VmHWM:'))
    while os.read(end, 65536):
        pass
    os.close(end)
    os.waitpid(child, 0)
    return memory


def measured(program, folder, circuit_text, test_text):
    """Processor time in milliseconds, peak memory in KiB, and the status."""
    words = ['run']
    for name, text in (('c.fir', circuit_text), ('t.test', test_text)):
        words.append(os.path.join(folder, name))
        with open(words[-1], 'w') as file:
            file.write(text)
    taken, status = processor_time(program, words)
    return taken, peak_memory(program, words), status


def main():
    program = sys.argv[1] if len(sys.argv) > 1 else os.path.join(TOP, 'crates/threadbench/out/threadbench')
    with tempfile.TemporaryDirectory() as folder:
        small = 'circuit S :\n  module S :\n    input a : UInt<1>\n    output b : UInt<1>\n    connect b, a\n'
        idle, least, _ = measured(program, folder, small, '')
        print(f'smallest texts        {idle:8.2f} ms {least:8d} KiB')
        for title, texts in (
                ('circuit', lambda part: (circuit(int(CIRCUIT_BYTES * part)), 'peek o0;\n')),
                ('test', lambda part: (circuit(16384), test(int(TEST_BYTES * part)))),
                ('both', lambda part: (circuit(int(CIRCUIT_BYTES * part)), test(int(TEST_BYTES * part))))):
            earlier = None
            for part in (0.25, 0.5, 1.0):
                circuit_text, test_text = texts(part)
                taken, memory, status = measured(program, folder, circuit_text, test_text)
                work, held = taken - idle, memory - least
                row = f'{title:8} {part:5.2f} status {status} {taken:8.2f} ms {memory:8d} KiB'
                if earlier:
                    row += f'   growth: time {work / earlier[0]:.2f}, memory {held / max(earlier[1], 1):.2f}'
                print(row + f'   ({len(circuit_text)} and {len(test_text)} bytes)')
                earlier = (work, held)


if __name__ == '__main__':
    main()
