#!/usr/bin/env bash
# The README says what is: each command that it shows with a `$` writes what stands below it, the usage line is the
# program's, the lines of the library's examples stand in the tests that run them, each file that it names is there, each
# of its figures stands in docs/FIGURES.md, as do those of the pictures, and it has at most 8 KB. Run it after `rt run` in crates/a2l has built the program. It needs python3.
set -euo pipefail
cd "$(dirname "$0")/.."
[ -x crates/a2l/out/a2l ] || { echo "build the program first: cd crates/a2l && rt run"; exit 1; }
python3 - << 'END'
import os
import re
import subprocess
import sys

text = open('README.md', encoding='utf-8').read()
wrong = []
blocks = [re.sub('^    ', '', block, flags=re.M) for block in re.findall(r'(?:^    .*\n)+', text, re.M)]
shown = 0
for block in blocks:
    first, _, rest = block.partition('\n')
    if first.startswith('$ '):
        shown += 1
        words = first[2:].split()
        # as in a release
        words[0] = {'bin/a2l': 'crates/a2l/out/a2l', 'bin/a2l_why': 'crates/a2l_why/out/a2l_why'}.get(words[0], words[0])
        if not os.path.exists(words[0]):
            print(f'skipped, {words[0]} is not built')
            continue
        written = subprocess.run(words, stdin=subprocess.DEVNULL, capture_output=True, check=False).stdout.decode()
        if written != rest:
            wrong.append(f'{first}\nwrites\n{written}')
    elif first.startswith('usage: '):
        shown += 1
        usage = subprocess.run(['crates/a2l/out/a2l'], capture_output=True, check=False).stdout.decode()
        if usage != block:
            wrong.append(f'the usage line is {usage}')
    elif first.startswith('fn '):
        shown += 1
        if block not in open('crates/answer_tests/src/library.rt', encoding='utf-8').read():
            wrong.append('the example of the library is not that of crates/answer_tests/src/library.rt')
    elif first.startswith('with a2l.open'):
        shown += 1
        doctest = re.sub(r'^(>>> |\.\.\. ?)', '', open('python/a2l/__init__.py', encoding='utf-8').read(), flags=re.M)
        if block not in doctest:
            wrong.append('the example for Python is not one of python/a2l')
figures = open('docs/FIGURES.md', encoding='utf-8').read()
for figure in re.findall(r'\b[\d,.]*\d (?:s|ms|MB|GB|microseconds)\b', re.sub('^    .*$', '', text, flags=re.M)):
    if not re.search(rf'(?<![\d.,]){re.escape(figure)}\b', figures):
        wrong.append(f'{figure} is not in docs/FIGURES.md')
charts = subprocess.run([sys.executable, 'bench/charts.py', '--check'], capture_output=True, text=True, check=False)
if charts.returncode:
    wrong.append(charts.stderr.strip())
for path in re.findall(r'\b(?:docs|tests|bench|examples|include|python|rust|samples)/[\w./-]+\w', text):
    if not os.path.exists(path):
        wrong.append(f'{path} is not there')
if len(text.encode()) > 8192:
    wrong.append('it has more than 8 KB')
print('\n'.join(wrong + [f'{shown} blocks of the README are right']))
sys.exit(1 if wrong or not shown else 0)
END
