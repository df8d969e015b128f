"""Runs the built program on the cases, each with 1, 2 and 8 workers.

A case is a folder of cases/. Its file `words` has the words without --workers, `status` the status, `out` and `err` what
the program writes. The other files are those that the words name. With one worker both streams are compared byte for byte.
With several, the error stream is; the output may have the queries of a union in another order, their atoms too, and other
names for variables. A cut's rows may be others then, so of an output with a cut the headers and the first lines of its
sections and the number of its lines are compared.
"""
import pathlib
import subprocess
import sys

from outputs import same_output

HERE = pathlib.Path(__file__).resolve().parent
PROGRAM = pathlib.Path(sys.argv[1]) if sys.argv[1:] else HERE.parent / 'crates' / 'ucq' / 'out' / 'ucq'


def text(case, name, default=''):
    path = case / name
    return path.read_text() if path.exists() else default


def first_lines(out):
    """The headers and the first lines of the sections, and the number of all lines."""
    heads = ('% query ', '% finished', '% cut ')
    return [line for line in out.split('\n') if line.startswith(heads)], out.count('\n')


def is_right(workers, out, want):
    if workers == 1:
        return out == want
    if '% cut ' in want:
        return first_lines(out) == first_lines(want)
    return same_output(out, want)


def main():
    runs = wrong = 0
    for case in sorted((HERE / 'cases').iterdir()):
        words = text(case, 'words').split()
        for workers in (1, 2, 8):
            ended = subprocess.run([PROGRAM, '--workers', str(workers), *words], cwd=case, timeout=120,
                                   stdin=subprocess.DEVNULL, capture_output=True)
            right = (ended.returncode == int(text(case, 'status', '0'))
                     and ended.stderr.decode() == text(case, 'err')
                     and is_right(workers, ended.stdout.decode(), text(case, 'out')))
            runs += 1
            if not right:
                wrong += 1
                print(f'WRONG {case.name}, {workers} workers: status {ended.returncode}')
                print(ended.stdout.decode() + ended.stderr.decode())
    print(f'{runs} runs, {wrong} wrong')
    return 1 if wrong else 0


if __name__ == '__main__':
    sys.exit(main())
