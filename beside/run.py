"""Plays many row files by the plain book and by a program, and compares the outputs.

    python3 beside/run.py [--count N] [--seed N] PROGRAM [ARGUMENT ...]

PROGRAM reads a row file from standard input and must print, byte for byte, what the
book prints, and end with status 0. Ends with status 1 at the first difference, with
the text and both outputs in target/beside.
"""

import argparse
import shutil
import subprocess
import sys
from collections import Counter
from concurrent.futures import ThreadPoolExecutor
from pathlib import Path

sys.dont_write_bytecode = True

import book
import sessions
import worked

HERE = Path(__file__).resolve().parent.parent
SECONDS_ALLOWED = 120


def all_cases(count, seed):
    """Triples of a sort, a text, and the output due if it is written down."""
    for text, output in worked.worked():
        yield "worked by hand", text, output
    for path in sorted((HERE / "examples").glob("*.row")):
        yield path.relative_to(HERE).as_posix(), path.read_bytes(), None
    for sort, text in sessions.sessions(count, seed):
        yield sort, text, None


def answer_of(program, text):
    """What the program prints for a text; its ending, if it is not a good one."""
    try:
        run = subprocess.run(program, input=text, stdout=subprocess.PIPE, timeout=SECONDS_ALLOWED)
    except subprocess.TimeoutExpired:
        return b"", "no end after %d seconds" % SECONDS_ALLOWED
    return run.stdout, "status %d" % run.returncode if run.returncode else ""


def outcomes(output):
    """The sort of each line printed: its word, and for ? and ! the number."""
    for line in output.decode().splitlines():
        word, *numbers = line.split("\t")
        yield f"{word} {numbers[-1]}" if word in "?!" else word


def first_difference(due, book_output, program_output, ending):
    """Says what differs; nothing if all is well."""
    if due is not None and book_output != due:
        return "the book does not print what was worked out by hand"
    if ending:
        return f"the program ends badly: {ending}"
    if program_output != book_output:
        lines = zip(book_output.split(b"\n"), program_output.split(b"\n"))
        at = next((i for i, (ours, theirs) in enumerate(lines, start=1) if ours != theirs), None)
        return "one output ends early" if at is None else f"the outputs differ at line {at}"
    return ""


def keep(text, book_output, program_output):
    """Writes a session that differs, and both outputs, for a look at them."""
    folder = HERE / "target" / "beside"
    folder.mkdir(parents=True, exist_ok=True)
    for name, content in (("session.row", text), ("book.out", book_output), ("program.out", program_output)):
        (folder / name).write_bytes(content)
    return folder / "session.row"


def print_table(title, counts):
    """A column of counts."""
    print(title)
    for key in sorted(counts):
        print(f"  {key:<26}{counts[key]:>9}")


def main():
    """Compares case by case, two runs of the program at a time."""
    options = argparse.ArgumentParser(description="Compares a program with the plain book.")
    options.add_argument("--count", type=int, default=3_000)
    options.add_argument("--seed", type=int, default=1)
    options.add_argument("program", nargs=argparse.REMAINDER)
    chosen = options.parse_args()
    if not chosen.program or shutil.which(chosen.program[0]) is None:
        options.error("a program to compare with is needed")
    cases = list(all_cases(chosen.count, chosen.seed))
    sorts, lines = Counter(), Counter()
    with ThreadPoolExecutor(2) as pool:
        answers = pool.map(lambda case: answer_of(chosen.program, case[1]), cases)
        for place, ((sort, text, due), (answer, ending)) in enumerate(zip(cases, answers), start=1):
            output = book.play(text)
            difference = first_difference(due, output, answer, ending)
            if difference:
                pool.shutdown(cancel_futures=True)
                print(f"session {place} ({sort}): {difference}; see {keep(text, output, answer)}")
                return 1
            sorts[sort] += 1
            lines.update(outcomes(output))
    print_table("sessions", sorts)
    print_table("lines printed", lines)
    print(f"{len(cases)} sessions, every output the same")
    return 0


if __name__ == "__main__":
    sys.exit(main())
