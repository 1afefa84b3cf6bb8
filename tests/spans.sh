#!/usr/bin/env bash
# Asks random spans of programs of gcc, g++, clang, clang++ and rustc at -O0 and -O2, 200 of each program, of up to 4,096
# addresses each. The pieces of each span have to be what a2l answers when it is asked address by address. And where a
# piece begins and at its last address, llvm-symbolizer has to answer as it, and another column where two pieces of one
# line touch; a difference has to have a reason of tests/reasons.py, which the file itself bears out. The first word may
# say how many spans; further words may name more programs. Run it after `rt run` in crates/a2l has built a2l. It needs
# python3 and LLVM's tools, and says which compilers it lacks. Its last line counts the spans, their addresses and pieces.
. "$(dirname "$0")/programs.sh"
need_a2l
write_sources
count=${1:-200}
shift || true
build_levels

cat > compare.py <<'END_PY'
import collections, os, random, re, sys
sys.path.insert(0, sys.argv[1])
import answers, reasons

A2L, COUNT, MOST = sys.argv[2], int(sys.argv[3]), 4096


def text_section(path):
    for line in answers.shown(['readelf', '--wide', '--section-headers', path]):
        found = re.search(r'\] \.text +PROGBITS +(\w+) \w+ (\w+)', line)
        if found:
            begin, size = (int(word, 16) for word in found.groups())
            return begin, begin + size


def pieces_of(path, spans):
    """The pieces of each span, by a2l: where each begins and ends, and its location as text."""
    asked = ''.join(f'{low:x}-{high:x}\n' for low, high in spans)
    found = []
    for line in answers.shown_for([A2L, '-e', path, '-a'], asked):
        span, _, location = line.partition(' ')
        if location:
            found[-1].append((*(int(end, 16) for end in span.split('-')), location))
        elif line != '??:0':
            found.append([])
    assert len(found) == len(spans), (path, len(found))
    return found


def drawn(path):
    """Random spans: half of them begin shortly before an address that has a row, the others anywhere in the code."""
    random.seed(path)
    begin, end = text_section(path)
    [all_pieces] = pieces_of(path, [(0, 2 ** 64 - 1)])
    for n in range(COUNT):
        low = random.choice(all_pieces)[0] - random.randrange(64) if n % 2 else random.randrange(begin - MOST // 2, end)
        yield max(low, 0), max(low, 0) + random.randrange(1, MOST + 1)


def compare_addresses(path, spans, found):
    """Each address of a span has the location of the piece in which it lies, by a2l asked for that address alone."""
    asked = sorted({a for low, high in spans for a in range(low, high)})
    shown = answers.shown_for([A2L, '-e', path], ''.join(f'{a:x}\n' for a in asked))
    location = dict(zip(asked, shown))
    assert len(shown) == len(asked), path
    for (low, high), pieces in zip(spans, found):
        at = low
        for begin, end, of_piece in [*pieces, (high, high, None)]:
            assert at <= begin <= end <= high, (path, hex(begin), hex(end))
            for a in range(at, begin):
                assert location[a] == '??:0', (path, hex(low), hex(high), hex(a), location[a], 'but no piece')
            for a in range(begin, end):
                assert location[a] == of_piece, (path, hex(low), hex(high), hex(a), location[a], of_piece)
            at = end
    return len(asked)


def borders(spans, found):
    """The addresses at which llvm-symbolizer is asked: the first and the last of each piece, and the one after it."""
    asked = set()
    for (_, high), pieces in zip(spans, found):
        for begin, end, _ in pieces:
            asked.update({begin, end - 1, min(end, high - 1)})
    return sorted(asked)


def compare_llvm(path, spans, found):
    """Where pieces begin and end, beside llvm-symbolizer. It gives how many addresses were alike, and the reasons of the
    others."""
    asked = borders(spans, found)
    theirs = dict(zip(asked, answers.llvm_places(path, asked)))
    other, sides = set(), 0
    for pieces in found:
        for n, (begin, end, of_piece) in enumerate(pieces):
            for a in (begin, end - 1):
                if theirs[a][0] != of_piece:
                    other.add(a)
            same = other.isdisjoint({begin, end - 1}) and not of_piece.endswith(':?')
            assert not same or theirs[begin] == theirs[end - 1], (path, hex(begin), hex(end), 'is more than one piece')
            if same and n + 1 < len(pieces) and pieces[n + 1][0] == end and pieces[n + 1][2] == of_piece:
                assert theirs[end] != theirs[begin], (path, hex(begin), hex(end), 'is one piece with the next')
                sides += 1
    return len(asked) - len(other), why(path, sorted(other)), sides


def why(path, asked):
    """The reasons for which llvm-symbolizer answers otherwise, of which each address has one."""
    found = collections.Counter()
    if asked:
        program = answers.Program(path)
        program.ask(asked)
        for a, mine, theirs in zip(asked, answers.a2l(A2L, path, asked), answers.llvm(path, asked)):
            reason = reasons.reasons('llvm', program, a, mine, theirs)
            assert reason, (path, hex(a), mine, theirs)
            found.update(reason)
    return found


total, of_all = collections.Counter(), collections.Counter()
for path in sys.argv[4:]:
    spans = list(drawn(path))
    found = pieces_of(path, spans)
    addresses = compare_addresses(path, spans, found)
    alike, different, sides = compare_llvm(path, spans, found)
    pieces = sum(map(len, found))
    assert pieces > 0, path
    told = ''.join(f', {count} {reason}' for reason, count in different.items())
    print(f'{os.path.basename(path)}: {len(spans)} spans, {addresses} addresses, {pieces} pieces; '
          f'{alike} borders alike in llvm-symbolizer, {sides} of them between columns{told}', flush=True)
    total.update(spans=len(spans), addresses=addresses, pieces=pieces, alike=alike)
    of_all += different
for reason, count in of_all.most_common():
    print(f'{count:7} {reason}: {reasons.SAID[reason]}')
print(f'{total["spans"]} spans of {total["addresses"]} addresses and {total["pieces"]} pieces are what single addresses '
      f'give; {total["alike"]} borders agree with llvm-symbolizer, no other without a reason')
END_PY
python3 compare.py "$here/tests" "$a2l" "$count" "${programs[@]}" "$@"
