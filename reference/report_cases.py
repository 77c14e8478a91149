"""Writes what the test program file_report_test reads and has to print: python3 reference/report_cases.py

Its input is small halls and damaged texts, and its output is what this planner prints for them.
"""

import pathlib

import halls
import planner

CRATE = pathlib.Path(__file__).parent.parent / "crates" / "file_report_test"
SEED = 2026
COUNT = 600
SEPARATOR = b"%"
# Texts at the limit of question 1 are left to task_file_test.
LONGEST = 20_000


def main():
    texts = [text for text in halls.cases(SEED, COUNT) if SEPARATOR not in text and len(text) < LONGEST]
    (CRATE / "stdin").write_bytes(b"".join(text + SEPARATOR for text in texts))
    (CRATE / "stdout").write_bytes(b"".join(map(planner.run, texts)))
    print(f"{len(texts)} texts")


if __name__ == "__main__":
    main()
