"""Damages files and compares what the program and the model write of each. Words: the program, a folder of samples, how
many files, a seed, and small programs of compilers. See tests/fuzz.sh."""
import multiprocessing
import os
import random
import sys
from collections import Counter

here = os.path.dirname(os.path.abspath(__file__))
sys.path[:0] = [here, os.path.dirname(here)]

import rows
from compare import judge
from damage import base_of, damaged
from fields import fields_of
from generate import Generator
from samples import bases

CHUNK = 25
MOST_DIFFERENCES = 10


def base_for(drawn):
    """A base file: half of them are made at random."""
    if drawn.random() < 0.5:
        return base_of('made at random', Generator(drawn).file(), fields_of)
    return drawn.choice(BASES)


def draw(seed, index):
    """The damaged file of a number, its story, and the draws that follow."""
    drawn = random.Random(f'{seed}/{index}')
    base = base_for(drawn)
    file, told = damaged(drawn, base)
    return file, [base.name, *told], drawn


def judged(first):
    """The verdicts of some files, and the stories of those in which program and model differ."""
    verdicts, stories = Counter(), []
    for index in range(first, min(first + CHUNK, COUNT)):
        file, told, drawn = draw(SEED, index)
        path = f'fuzzed-{os.getpid()}.elf'
        found = judge(drawn, PROGRAM, file, path)
        verdicts[found.verdict] += 1
        verdicts['questions'] += found.asked
        if found.differences:
            stories.append((index, file, told, found.differences))
        elif found.verdict == 'given up':
            print(f'given up: number {index} of seed {SEED}: {"; ".join(told)}', flush=True)
    return verdicts, stories


def show(index, file, told, differences):
    """Keeps a file, and prints what is known of it."""
    kept = os.path.join(KEPT, f'fuzz-{SEED}-{index}.elf')
    with open(kept, 'wb') as written:
        written.write(file)
    print(f'\ndiffers: number {index} of seed {SEED}, kept as {kept}')
    for line in told:
        print(f'  {line}')
    for asked, got, wanted in differences:
        words = [kept if word.startswith('fuzzed-') else word for word in asked.words]
        print(f'a2l {" ".join(words)}' + (f' < {asked.given!r}' if asked.given else ''))
        for who, outcome in (('program', got), ('model', wanted)):
            print(f'{who}: status {outcome.status}, errors {outcome.errors!r}, output\n{outcome.output!r}')


def check_undamaged():
    """Compares rows that were worked out by hand, and then each base file as it is, at all borders."""
    inlined, mixed = (rows.load(os.path.join(SAMPLES, name)) for name in ('inlined.elf', 'mixed.elf'))
    print(f'{rows.check(PROGRAM, inlined, mixed)} rows agree that were worked out by hand')
    for base in BASES:
        found = judge(random.Random(SEED), PROGRAM, base.file, 'fuzzed-undamaged.elf', 4000)
        if found.differences:
            show('undamaged', base.file, [base.name], found.differences)
            sys.exit(1)
    print(f'{len(BASES)} files as they are agree', flush=True)


def main():
    check_undamaged()
    total, differing = Counter(), 0
    with multiprocessing.get_context('fork').Pool(len(os.sched_getaffinity(0))) as pool:
        for verdicts, stories in pool.imap_unordered(judged, range(0, COUNT, CHUNK)):
            total += verdicts
            for story in stories:
                show(*story)
            differing += len(stories)
            if differing >= MOST_DIFFERENCES:
                break
    questions = total.pop('questions', 0)
    for verdict in sorted(total):
        print(f'{total[verdict]:7} {verdict}')
    if differing:
        sys.exit(f'{differing} files differ; seed {SEED}')
    groups = Counter()
    for verdict, count in total.items():
        groups[verdict.split()[0]] += count
    print(f'{COUNT} files agree, {groups["answered"]} of them answered, {groups["refused"]} refused, '
          f'{groups["fault"]} with a fault, {groups["given"]} given up; {questions} words and lines, seed {SEED}')
    if min(groups['answered'], groups['refused'], groups['fault']) < COUNT // 10:
        sys.exit('of one of these there is less than a tenth')


PROGRAM, SAMPLES, COUNT, SEED, KEPT = sys.argv[1], sys.argv[2], int(sys.argv[3]), sys.argv[4], sys.argv[5]
BASES = bases(SAMPLES, sys.argv[6:])
main()
