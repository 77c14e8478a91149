"""Compares the proved reader and writer with the other planner's: python3 reference/compare_reader.py SEED COUNT

Run `rt run < stdin` in crates/task_file_test first: the texts go through the built program, behind a label each. Number and
place of a refusal have to agree, and the text that is written of a task.
"""

import collections
import pathlib
import random
import re
import subprocess
import sys

import halls
import planner

PROGRAM = pathlib.Path(__file__).parent.parent / "crates" / "task_file_test" / "out" / "task_file_test"
# What the program reads at once.
INPUT_BYTES = 60_000
SEPARATOR = b"%"


def texts(seed, count):
    """Files and damaged files, half of each or more."""
    rng = random.Random(seed)
    for _ in range(count):
        text = planner.write(rng.choice(halls.KINDS)(rng))
        for case in (text, halls.damaged(rng, text)):
            if SEPARATOR not in case:
                yield case


def batches(cases):
    batch, size = [], 0
    for case in cases:
        if size + len(case) + 20 > INPUT_BYTES:
            yield batch
            batch, size = [], 0
        batch.append(case)
        size += len(case) + 20
    yield batch


def expected(text):
    try:
        return b"0 0\n" + planner.write(planner.read(text))
    except planner.Refused as refusal:
        return b"%d %d\n" % (refusal.number, refusal.place)


def printed(batch):
    """What the program prints for each text. An empty one is added, since the program prints more behind the last."""
    pieces = [b"@%d@%s%s" % (i, SEPARATOR, text) for i, text in enumerate(batch + [b""])]
    out = subprocess.run([PROGRAM], input=SEPARATOR.join(pieces), capture_output=True, check=True).stdout
    return re.split(rb"@\d+@: ", out)[1:-1]


def main():
    seed, count = int(sys.argv[1]), int(sys.argv[2])
    numbers = collections.Counter()
    different = 0
    for batch in batches(texts(seed, count)):
        for text, out in zip(batch, printed(batch), strict=True):
            want = expected(text)
            numbers[int(want.split()[0])] += 1
            if out != want:
                different += 1
                print(f"differs: {text!r}\n  expected {want!r}\n  printed  {out!r}")
    print(f"{numbers.total()} texts, {different} differ; by number: {dict(sorted(numbers.items()))}")
    sys.exit(different > 0)


if __name__ == "__main__":
    main()
