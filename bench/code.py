#!/usr/bin/env python3
"""What the code of tests costs: local statements a second in loops of several kinds and in straight code, and the time and the memory that
reading, checking and compiling of a long test take.

    bench/code.py [--instructions] [PROGRAM]

PROGRAM is the program of the tests of `tl_prepare`, which `rt test` there makes: crates/tl_prepare/out/tl_prepare_tests if not given. It
runs the one test that is named, and the tests that are measured are made for it. What a test takes that does next to nothing is taken off.
Growth is the ratio of what a whole takes to what its half takes: it is linear where that is near 2. `--instructions` counts the
processor's instructions too, by valgrind: they don't depend on what else the machine does.
"""
import os
import re
import subprocess
import sys

from first_path import TOP, peak_memory, processor_time

AGAIN = 20
TEXT_BYTES = 262_144
# A test that executes so many local statements.
LOOPS = (('an empty loop', 'a_long_loop', 655_341), ('a loop of statements', 'a_long_loop_of_statements', 585_022))
# A test whose first action is worked out once or more, and how many local statements that takes.
ACTIONS = (('a loop of many ways', 'a_loop_of_many_ways', 61_443), ('half a straight test', 'half_a_straight_test', 7_501),
           ('a straight test', 'a_straight_test', 15_001))


def words(name):
    return [f'tests::{name}']


def time_taken(program, name):
    """Processor time of a test in milliseconds."""
    taken, status = processor_time(program, words(name))
    if status != 0:
        sys.exit(f'{program}: the test {name} ends with status {status}')
    return taken


def instructions(program, name):
    """How many millions of the processor's instructions a test takes."""
    counted = subprocess.run(['valgrind', '--tool=callgrind', '--callgrind-out-file=/dev/null', program] + words(name),
                             stdout=subprocess.DEVNULL, stderr=subprocess.PIPE, text=True, check=True)
    return int(re.search(r'Collected : (\d+)', counted.stderr).group(1)) / 1e6


def statements(program, measure, unit):
    """What a local statement takes, by a measure that gives a millionth of the unit's thousandfold."""
    idle = measure(program, 'an_empty_test')
    for title, name, count in LOOPS:
        taken = measure(program, name) - idle
        print(f'{title:22} {taken:9.2f} {unit} for {count} local statements: {taken * 1e6 / count:7.1f} a statement')
    earlier = None
    for title, name, count in ACTIONS:
        taken = (measure(program, f'{name}_again_and_again') - measure(program, name)) / AGAIN
        row = f'{title:22} {taken:9.2f} {unit} for {count} local statements: {taken * 1e6 / count:7.1f} a statement'
        if title == 'a straight test':
            row += f'   growth {taken / earlier:.2f}'
        print(row)
        earlier = taken


def texts(program, measure, unit):
    """What reading with checking, and compiling take."""
    idle = measure(program, 'an_empty_test')
    earlier = None
    for title, name in (('half a long test', 'half_a_long_test'), ('a long test', 'a_long_test')):
        once = measure(program, name) - idle
        compiled = (measure(program, f'{name}_again_and_again') - idle - once) / AGAIN
        row = f'{title:22} {once - compiled:9.2f} {unit} read and checked, {compiled:9.2f} compiled'
        if earlier:
            row += f'   growth {(once - compiled) / earlier[0]:.2f} and {compiled / earlier[1]:.2f}'
        print(row)
        earlier = (once - compiled, compiled)


def memory(program):
    """The memory that reading, checking and compiling take at the peak."""
    idle = peak_memory(program, words('an_empty_test'))
    earlier = None
    for title, name, size in (('half a long test', 'half_a_long_test', TEXT_BYTES // 2), ('a long test', 'a_long_test', TEXT_BYTES)):
        held = peak_memory(program, words(name)) - idle
        row = f'{title:22} {held:9d} KiB at the peak for {size} bytes of text: {held * 1024 / size:.1f} bytes a byte'
        if earlier:
            row += f'   growth {held / earlier:.2f}'
        print(row)
        earlier = held


def main():
    arguments = [word for word in sys.argv[1:] if word != '--instructions']
    program = arguments[0] if arguments else os.path.join(TOP, 'crates/tl_prepare/out/tl_prepare_tests')
    measures = [(time_taken, 'ms (a statement in ns)')]
    if '--instructions' in sys.argv:
        measures.append((instructions, 'million instructions'))
    for measure, unit in measures:
        statements(program, measure, unit)
        texts(program, measure, unit)
    memory(program)


if __name__ == '__main__':
    main()
