"""lines.py [--any-order] [--gnu] OURS THEIRS..: compares what a client wrote with a2l-symbolizer and with others.

Each line of ours has to be the one at its place in one of theirs that has as many lines, or to differ
from it for a reason of differences.py. With --any-order the place means nothing, since lines in the order
of names have another one where a name differs. With --gnu ours has names in GNU's style, and theirs may have them in
LLVM's. It says how many lines there are.
"""

import collections
import pathlib
import sys

import differences


def aligned(ours, theirs):
    """Theirs at the places of ours: lines that are the same first, then those that differ for a reason, then the rest."""
    left, found = list(theirs), [None] * len(ours)
    for fits in (str.__eq__, differences.reason, lambda peer, line: True):
        for place, line in enumerate(ours):
            peer = next((peer for peer in left if fits(peer, line)), None) if found[place] is None else None
            if peer is not None:
                left.remove(peer)
                found[place] = peer
    return found


def main(*words):
    paths = [word for word in words if not word.startswith('--')]
    style = differences.of_llvm if '--gnu' in words else str
    ours, *theirs = (style(pathlib.Path(path).read_text(errors='backslashreplace')).splitlines() for path in paths)
    of_one_length = [lines for lines in theirs if len(lines) == len(ours)]
    if '--any-order' in words:
        of_one_length = [aligned(ours, lines) for lines in of_one_length]
    if not of_one_length:
        sys.exit(f'{len(ours)} lines, where the others have {", ".join(str(len(lines)) for lines in theirs)}')
    counts, unlike = collections.Counter(), 0
    for line, *peers in zip(ours, *of_one_length):
        why = 'same' if line in peers else next(filter(None, (differences.reason(peer, line) for peer in peers)), None)
        counts[why] += 1
        if why is None:
            unlike += 1
            print('\n'.join(['ours   ' + line] + ['theirs ' + peer for peer in peers]))
    told = [f'{counts[why]} {why}' for why in differences.SAID if counts[why]]
    print(f'{counts["same"]} of {len(ours)} lines are the same' + ''.join(f', {why}' for why in told))
    sys.exit(1 if unlike else 0)


if __name__ == '__main__':
    main(*sys.argv[1:])
