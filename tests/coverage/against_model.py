"""Compares what the program and the model write of each file of a folder: its listing, and its answers to addresses and
spans. Words: the program, the folder, and one in which to keep files that differ. See tests/coverage.sh."""
import multiprocessing
import os
import random
import shutil
import sys
from collections import Counter

here = os.path.dirname(os.path.abspath(__file__))
sys.path[:0] = [os.path.join(here, '..'), os.path.join(here, '..', 'fuzz')]

from compare import GivenUp, Judged, judge

MOST_FILES = 6000


def judged(name):
    """The verdict on a file, and how program and model differ."""
    with open(os.path.join(FOLDER, name), 'rb') as file:
        content = file.read()
    path = f'compared-{os.getpid()}.elf'
    try:
        found = judge(random.Random(name), PROGRAM, content, path)
    except GivenUp:
        # a machine so busy that the time was over before the run had begun
        found = Judged('given up', 0, [])
    return name, found.verdict.split()[0], found.asked, found.differences


def show(name, differences):
    """Keeps a file, and prints what is known of it."""
    kept = os.path.join(KEPT, 'differs-' + name)
    shutil.copy(os.path.join(FOLDER, name), kept)
    for asked, got, wanted in differences:
        words = [kept if word.startswith('compared-') else word for word in asked.words]
        print(f'FOUND: another answer: a2l {" ".join(words)}' + (f' < {asked.given!r}' if asked.given else ''))
        print(f'program: {got}\nmodel: {wanted}')


def main():
    names = sorted(os.listdir(FOLDER))
    random.Random(len(names)).shuffle(names)
    verdicts, questions, differing = Counter(), 0, 0
    with multiprocessing.get_context('fork').Pool(len(os.sched_getaffinity(0))) as pool:
        for name, verdict, asked, differences in pool.imap_unordered(judged, names[:MOST_FILES]):
            verdicts[verdict] += 1
            questions += asked
            if differences:
                differing += 1
                show(name, differences)
    counts = ', '.join(f'{count} {verdict}' for verdict, count in sorted(verdicts.items()))
    print(f'{sum(verdicts.values())} files and {questions} words compared ({counts}), {differing} differ')
    sys.exit(differing > 0)


PROGRAM, FOLDER, KEPT = sys.argv[1:4]
main()
