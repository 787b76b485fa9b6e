"""Models as rows with what the evaluator answers, run by a program that prints those of its rows that it answers otherwise,
and then the line `N rows, M differ`."""

import os
import subprocess
import tempfile

from mgedmodel.rows import row_of

from .reducing import smaller

SECONDS = 600  # that the program may take for all rows


def compare(program, models, place):
    """Whether the program answers all models as the evaluator. The rows are left in a file where it does not, and the first
    of them that differs, made smaller, in another one."""
    path = place("all") + ".rows"
    rows = [(number, model, row_of(model)) for number, model in models]
    if not report_of(program, path, [row for _, _, row in rows]):
        os.remove(path)
        return True
    number, model = first_that_differs(program, rows)
    differs = lambda model: bool(report_alone(program, [row_of(model)]))
    model = smaller(model, differs)
    own = place(number) + ".rows"
    print(report_of(program, own, [row_of(model)]) + f"\nwritten to {own}, and all rows to {path}")
    return False


def first_that_differs(program, rows):
    """The number and the model of the first row that is answered otherwise, found by halves."""
    while len(rows) > 1:
        half = rows[: len(rows) // 2]
        rows = half if report_alone(program, [row for _, _, row in half]) else rows[len(half) :]
    return rows[0][:2]


def report_alone(program, rows):
    with tempfile.TemporaryDirectory() as folder:
        return report_of(program, os.path.join(folder, "models.rows"), rows)


def report_of(program, path, rows):
    """What the program prints of these rows, which are written to a file; nothing where it answers all of them so."""
    with open(path, "wb") as file:
        file.write(b"".join(rows))
    try:
        ran = subprocess.run([program, path], capture_output=True, timeout=SECONDS)
    except subprocess.TimeoutExpired:
        return f"(not ended after {SECONDS} seconds)"
    printed = (ran.stdout + ran.stderr).decode("latin-1")
    is_same = f"{len(rows)} rows, 0 differ" in printed.split("\n")
    return "" if is_same else printed or f"(nothing printed, status {ran.returncode})"
