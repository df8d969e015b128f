"""Runs the built program on some cases again and again, and refuses another call for memory each time.

A run must end as the case does, or with status 1: then its output is the beginning of the case's, and its error stream has
the line for want of memory, or nothing where the program had not even its words. Calls are counted over all threads.
"""
import os
import pathlib
import subprocess
import sys
import tempfile

from outputs import is_front, same_output
from run import HERE, PROGRAM, text

# a case, and its workers
CASES = [('one_rule', 2), ('a_constant_is_answered', 2), ('pruned_while_claimed', 2), ('compared', 2), ('made', 1)]


def run(case, workers, shim, **more):
    words = text(case, 'words').split()
    return subprocess.run([PROGRAM, '--workers', str(workers), *words], cwd=case, timeout=120,
                          stdin=subprocess.DEVNULL, capture_output=True,
                          env={**os.environ, 'LD_PRELOAD': shim, **more})


def is_right(ended, want):
    out, err = ended.stdout.decode(), ended.stderr.decode()
    if ended.returncode == 1:
        return is_front(out, want) and err in ('', 'ucq: out of memory\n')
    return ended.returncode == 0 and err == '' and same_output(out, want)


def check(name, workers, folder):
    case, shim = HERE / 'cases' / name, str(folder / 'refuse.so')
    (folder / 'count').write_bytes(bytes(8))
    run(case, workers, shim, REFUSE_COUNT=str(folder / 'count'))
    count = int.from_bytes((folder / 'count').read_bytes(), sys.byteorder)
    wanted, wrong = 0, []
    for number in range(1, count + 1):
        ended = run(case, workers, shim, REFUSE=str(number))
        wanted += ended.returncode == 1
        if not is_right(ended, text(case, 'out')):
            wrong.append((number, ended.returncode, ended.stdout, ended.stderr))
    print(f'{name}, workers: {workers}: {count} calls, each refused in a run of its own; '
          f'{wanted} runs with status 1, {len(wrong)} wrong')
    for row in wrong:
        print('WRONG', *row)
    return len(wrong)


def main():
    with tempfile.TemporaryDirectory() as name:
        folder = pathlib.Path(name)
        subprocess.run(['gcc', '-O2', '-shared', '-fPIC', '-o', folder / 'refuse.so', HERE / 'refuse.c'], check=True)
        return 1 if sum([check(*case, folder) for case in CASES]) else 0


sys.exit(main())
