"""reports.py [--gnu] THEIRS OURS: compares reports of sanitizers, of which two folders have the same.

A line that differs needs one of the reasons of differences.py, of which it prints how many reports
they concern; the exit status is 1 if one has none. With --gnu the second were made through addr2line,
which knows no columns and no variables and has names in another style, and the rest is compared.
"""

import collections
import pathlib
import re
import sys

import differences

# What differs from run to run: numbers of processes, and whether a thread has ended.
VARYING = [(re.compile(r'==\d+=='), '=='), (re.compile(r'\b(pid|tid)=\d+'), r'\1'),
           (re.compile(r', (running|finished)\)'), ')')]
# Columns, modules and variables' lines, which addr2line doesn't give; what it can't place is `??:?`.
NOT_OF_GNU = [(re.compile(r'(:\d+):\d+(?=[ \n]|$)'), r'\1'), (re.compile(r' (\?\?:\?|<null>)'), ''),
              (re.compile(r' \([^()]*\+0x[0-9a-f]+\)'), ''), (re.compile(r' \(BuildId: \w+\)'), ''),
              (re.compile(r"(defined in '[^':]*)[:\d]*'"), r"\1'"), (re.compile(r':\?(?=\s)'), ''),
              (re.compile(r'  Location is global [^\n]*\n\n?'), '')]

# llvm-symbolizer writes to standard error, and so into the report, what it can't open.
OF_THE_TOOL = re.compile(r'^\S*llvm-symbolizer\S*: error: .*$\n', re.MULTILINE)


def without(patterns, text):
    for pattern, instead in patterns:
        text = pattern.sub(instead, text)
    return text


def compare(name, theirs, ours, counts):
    """Prints the lines of two reports that differ without a reason; whether there are any."""
    if theirs == ours:
        counts['equal'] += 1
        return False
    if OF_THE_TOOL.search(theirs):
        theirs = OF_THE_TOOL.sub('', theirs)
        counts['told'] += 1
    lines, others = theirs.splitlines(), ours.splitlines()
    pairs = [(a, b) for a, b in zip(lines, others) if a != b]
    if len(lines) != len(others):
        pairs.insert(0, (f'{len(lines)} lines', f'{len(others)} lines'))
    reasons = [differences.reason(a, b) for a, b in pairs]
    counts.update(set(filter(None, reasons)))
    unlike = [pair for pair, why in zip(pairs, reasons) if why is None]
    for a, b in unlike[:5]:
        print(f'{name}\n  theirs {a}\n  ours   {b}')
    return bool(unlike)


def main(*words):
    patterns = VARYING + (differences.STYLE + NOT_OF_GNU if words[0] == '--gnu' else [])
    theirs, ours = map(pathlib.Path, words[-2:])
    counts, failures, frames = collections.Counter(), 0, 0
    for path in sorted(theirs.iterdir()):
        text = path.read_text(errors='backslashreplace')
        other = (ours / path.name).read_text(errors='backslashreplace')
        stack = len(re.findall(r'^ +#\d+ ', text, re.MULTILINE))
        if not stack:
            print(f'{path.name} has no stack')
        failures += not stack or compare(path.name, without(patterns, text), without(patterns, other), counts)
        counts['reports'] += 1
        frames += stack
    told = ''.join(f', {counts[why]} {why}' for why in differences.SAID if counts[why])
    print(f'{counts["reports"]} reports with {frames} frames: {counts["equal"]} the same{told}, {failures} unlike')
    sys.exit(1 if failures else 0)


if __name__ == '__main__':
    main(*sys.argv[1:])
