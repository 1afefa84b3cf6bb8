"""What a2l_why has to say of the files that tests/why.sh builds. Words: a2l, a2l_why, the folder of samples, how many
damaged files, a seed, and larger programs."""
import contextlib, json, os, random, re, struct, subprocess, sys

here = os.path.dirname(os.path.abspath(__file__))
sys.path[:0] = [os.path.join(here, 'fuzz'), here]

A2L, WHY, SAMPLES, COUNT, SEED = sys.argv[1], sys.argv[2], sys.argv[3], int(sys.argv[4]), sys.argv[5]
LARGER = sys.argv[6:]
ADDRESSES = 1000
LIMIT = 30  # seconds that a run may take
seen = 0


def run(words):
    return subprocess.run(words, capture_output=True, timeout=LIMIT)


def shown(*words):
    return subprocess.run(words, capture_output=True, text=True, check=True).stdout


def report(path, *asked):
    """The document of a file, and the page; both have the same status, and nothing stands on the error stream."""
    page, document = run([WHY, '-e', path, *asked]), run([WHY, '-e', path, '--json', *asked])
    assert page.stderr == document.stderr == b'', (path, page.stderr, document.stderr)
    told = json.loads(document.stdout)
    wanted = {'clean': 0, 'findings': 1, 'refused': 2}[told['status']]
    assert page.returncode == document.returncode == wanted, (path, page.returncode, document.returncode, told)
    return told, page.stdout.decode(errors='surrogateescape'), page.returncode


def listed(path):
    """How many units of each kind and version a2l lists."""
    lines = [line.split() for line in shown(A2L, '-e', path, '--units').splitlines()]
    return [(int(line[0], 16), int(line[2]), line[3]) for line in lines]


def file_report(path):
    """The report on a file, whose counts have to be those of the listing, and whose page has each note of the document."""
    told, page, status = report(path)
    if status == 2:
        refused = run([A2L, '-e', path, '0'])
        number, name = told['refusal']['number'], told['refusal']['name']
        assert refused.returncode == 2 and f'refused: {number} {name}'.encode() in refused.stderr, (path, told, refused)
        notes = [told['refusal']]
    else:
        kinds = [kind for _, _, kind in listed(path)]
        for kind in ('compile', 'partial', 'skeleton', 'skipped'):
            assert told['units'][kind] == kinds.count(kind), (path, kind, told['units'])
        assert told['units']['count'] == len(kinds)
        notes = told['findings']
        assert status == (1 if notes else 0), path
    for note in notes:
        assert f'- {note["text"]}\n  do: {note["remedy"]}\n' in page, (path, note, page)
    if status == 0:
        assert page.startswith('no findings') and page.count('\n') == 1, (path, page)
    return told


def finding(path, kind, *, remedy, others=0, **facts):
    """A file has a finding of a kind, once, with these facts, whose remedy has some words; and so many others."""
    global seen
    if not os.path.exists(path):
        return None
    told = file_report(path)
    assert told['status'] == 'findings', (path, told)
    found = [note for note in told['findings'] if note['kind'] == kind]
    assert len(found) == 1 and len(told['findings']) == 1 + others, (path, kind, told)
    for name, value in facts.items():
        assert found[0].get(name) == value, (path, name, value, found[0])
    assert remedy in found[0]['remedy'], (path, found[0])
    seen += 1
    return found[0]


def clean(path):
    global seen
    if os.path.exists(path):
        told = file_report(path)
        assert told['status'] == 'clean', (path, told)
        seen += 1


def refusal(path, number, field, *, remedy, found=None):
    """A file is refused by a number, for a field that has some value."""
    global seen
    if not os.path.exists(path):
        return
    told = file_report(path)
    assert told['status'] == 'refused', (path, told)
    why = told['refusal']
    assert why['number'] == number and remedy in why['remedy'], (path, why)
    reason = why['reason']
    assert field in reason['field'] and reason['wanted'], (path, why)
    assert found is None or found in reason['found'], (path, why)
    seen += 1


def changed(path, name, at, new):
    """A copy of a file with other bytes at a place."""
    with open(path, 'rb') as read:
        file = bytearray(read.read())
    file[at:at + len(new)] = new
    with open(name, 'wb') as written:
        written.write(file)
    return name


def section(path, name):
    """Where a section begins in the file, by readelf, and its address and size."""
    line = re.search(rf'\] {re.escape(name)} +\S+ +(\w+) (\w+) (\w+)', shown('readelf', '-SW', path))
    address, offset, size = (int(word, 16) for word in line.groups())
    return offset, address, size


def check_versions():
    for cc, producer in (('gcc', 'GNU C'), ('clang', 'clang')):
        clean(f'{cc}-clean')
        clean(f'{cc}-wide')
        for name, skipped in ((f'{cc}-old', 2), (f'{cc}-wide4', 2), (f'{cc}-mixed', 1)):
            note = finding(name, 'skipped', remedy='-gdwarf-5', version=4, count=skipped)
            if note:
                assert producer in note['first']['producer'], note
                place = next(offset for offset, version, _ in listed(name) if version == 4)
                assert note['first']['unit'] == hex(place), note
                assert note['first']['name'] == ('other.c' if 'mixed' in name else 'calls.c'), note
        note = finding(f'{cc}-split', 'skeletons', remedy='-gsplit-dwarf', count=2)
        if note:
            assert note['first']['dwo_name'].endswith('.dwo'), note
    note = finding('types', 'skipped', remedy='-fdebug-types-section', version=5, type='type units')


def check_refusals():
    refusal('gcc-calls.o', 3, 'e_type', remedy='link', found='1')
    for cc in ('gcc', 'clang'):
        refusal(f'{cc}-compressed', 6, 'sh_flags', remedy='--decompress-debug-sections', found='0x800')
    clean('gcc-decompressed')
    refusal('library.a', 1, 'magic', remedy='program', found='archive')
    refusal('script', 1, 'magic', remedy='program', found='script')
    refusal(changed('gcc-clean', 'narrow', 4, b'\1'), 2, 'EI_CLASS', remedy='64-bit', found='32 bits')
    refusal(changed('gcc-clean', 'big', 5, b'\2'), 2, 'EI_DATA', remedy='little-endian', found='big-endian')
    size = os.path.getsize('gcc-clean')
    with open('gcc-clean', 'rb') as read, open('cut', 'wb') as written:
        written.write(read.read(size // 2))
    refusal('cut', 4, 'e_shoff', remedy='cut or damaged')
    info, _, length = section('gcc-clean', '.debug_info')
    refusal(changed('gcc-clean', 'header', info, struct.pack('<I', length)), 7, 'unit_length', remedy='again')
    refusal(changed('gcc-clean', 'address', info + 7, b'\4'), 9, 'address_size', remedy='64-bit', found='4')
    refusal(changed('gcc-clean', 'root', info + 12, b'\x7d'), 10, 'abbreviation', remedy='again', found='125')


def check_pairs():
    build_id = re.search(r'Build ID: (\w+)', shown('readelf', '-n', 'pair')).group(1)
    finding('pair.linked', 'no_debug_info', remedy='that file', debuglink='pair.debug', build_id=build_id)
    finding('pair.stripped', 'no_debug_info', remedy='build id', debuglink=None, build_id=build_id)
    finding('pair.bare', 'no_debug_info', remedy='-g', debuglink=None, build_id=None)
    clean('pair.debug')


def check_units():
    note = finding('without', 'without_ranges', remedy='DW_AT_ranges', count=1)
    assert note['first']['name'] == 'hand.c', note
    # the same unit has no ranges, either
    note = finding('supplied', 'supplementary', remedy='dwz', others=1, count=1, file='hand.sup')
    if os.path.exists('dwz-one'):
        told = file_report('dwz-one')
        assert any(note['kind'] == 'supplementary' for note in told['findings']), told
    line, _, _ = section('gcc-clean', '.debug_line')
    note = finding(changed('gcc-clean', 'lines', line + 4, b'\4\0'), 'faulty', remedy='2.35', fault=4, count=1)
    assert note['reason']['field'] == 'version' and note['reason']['found'].startswith('4'), note
    info, _, _ = section('gcc-clean', '.debug_info')
    entries = re.findall(r'<1><(\w+)>: Abbrev Number', shown('readelf', '--debug-dump=info', 'gcc-clean'))
    note = finding(changed('gcc-clean', 'tree', info + int(entries[0], 16), b'\x7d'), 'faulty', remedy='again', fault=1, count=1)
    assert '125' in note['reason']['found'] and entries[0] in note['reason']['place'], note


def live_span(path):
    """How many addresses of live functions of the sources lie below 12 KB, by the symbol table."""
    sizes = {}
    for line in shown('readelf', '-sW', path).splitlines():
        words = line.split()
        if len(words) == 8 and words[3] == 'FUNC' and words[7] in ('first', 'second', 'main'):
            sizes[int(words[1], 16)] = int(words[2], 0)
    return sum(min(size, max(12288 - address, 0)) for address, size in sizes.items()), sizes


def check_dropped():
    for path, kind in (('dropped-one', 'functions_over_functions'), ('dropped-two', 'units_over_units'),
                       ('dropped-lld', 'functions_over_functions')):
        if not os.path.exists(path):
            continue
        span, functions = live_span(path)
        note = finding(path, kind, remedy='ld.lld with -z dead-reloc', addresses=span)
        begin = int(note['begin'], 16)
        assert begin in functions, (path, note, functions)
        answer = shown(A2L, '-f', '-e', path, note['begin']).splitlines()
        if kind.startswith('functions'):
            assert answer[0] == note['told']['function_name'] == 'dropped', (path, note, answer)
        else:
            assert note['told']['name'] == 'dropped.c' and note['hidden']['name'] == 'kept.c', (path, note)
        page = run([WHY, '-e', path, note['begin']]).stdout.decode()
        assert 'claims it too' in page, (path, page)
    clean('dropped-fixed')
    clean('dropped-marked')


def asked_of(path, drawn):
    offset, begin, size = section(path, '.text')
    del offset
    wide = [drawn.randrange(2 ** 64) for _ in range(8)]
    return [drawn.randrange(max(begin - 256, 0), begin + size + 256) for _ in range(ADDRESSES - 8)] + wide


def frames_of(lines):
    """The frames of a2l's lines: function, path and line."""
    found = []
    for name, place in zip(lines[::2], lines[1::2]):
        path, _, line = place.rpartition(':')
        found.append((None if name == '??' else name, None if path == '??' else path, None if line in ('0', '?') else int(line)))
    return found


def sections_of(page, words):
    """The lines of each word's section of a page: those of its steps, and those of its answer."""
    lines, at, found = page.split('\n')[:-1], 0, []
    for word, following in zip(words, [*words[1:], None]):
        assert lines[at] == f'{word}:', (word, lines[at])
        end = at + 1
        while end < len(lines) and lines[end] != f'{following}:':
            end += 1
        steps = [line for line in lines[at + 1:end] if line.startswith(('- ', '  do: '))]
        found.append((steps, lines[at + 1 + len(steps):end]))
        at = end
    assert at == len(lines)
    return found


def check_addresses(path):
    """The last lines of each address are a2l's, as are the frames of the document; an address is told as uncovered
    exactly where a2l knows nothing of it."""
    words = [hex(address) for address in dict.fromkeys(asked_of(path, random.Random(f'{SEED}/{path}')))]
    told, page, status = report(path, *words)
    asked = shown(A2L, '-a', '-f', '-i', '-e', path, *words).splitlines()
    heads = [f'0x{int(word, 16):016x}' for word in words]
    wanted = []
    for line in asked:
        if len(wanted) < len(heads) and line == heads[len(wanted)]:
            wanted.append([])
        else:
            wanted[-1].append(line)
    uncovered = 0
    for word, (steps, lines), in_document, right in zip(words, sections_of(page, words), told['asked'], wanted, strict=True):
        assert lines == right, (path, word, lines, right)
        assert in_document['asked'] == word and in_document['lines'] == ''.join(f'{line}\n' for line in right), (path, word)
        kinds = [note['kind'] for note in in_document['way']]
        assert len(steps) >= len(kinds) > 0, (path, word)
        is_uncovered = kinds == ['uncovered']
        uncovered += is_uncovered
        assert is_uncovered == ('frames' not in in_document), (path, word, in_document)
        if is_uncovered:
            assert right == ['??', '??:0'], (path, word, right)
        else:
            got = [tuple(frame.get(name) for name in ('function', 'path', 'line')) for frame in in_document['frames']]
            assert got == frames_of(right), (path, word, got, right)
            functions = sum(kind == 'function' for kind in kinds)
            assert functions == (len(right) // 2 if functions or right[0] != '??' else 0), (path, word, kinds, right)
    assert status == (1 if uncovered else 0) and 0 < uncovered < len(words), (path, uncovered)
    return len(words)


def check_words():
    """Spans, bad addresses and words that are refused."""
    told, page, status = report('gcc-clean', 'zz', '0-10', '0x0-0xffffffffffffffff')
    assert status == 1 and told['asked'][0]['lines'] == '!bad address\n', told
    assert told['asked'][1]['lines'] == '??:0\n' and told['asked'][2]['pieces'], told
    wanted = shown(A2L, '-e', 'gcc-clean', '0x0-0xffffffffffffffff')
    assert page.endswith(wanted) and told['asked'][2]['lines'] == wanted
    usage = b'usage: a2l_why -e FILE [--json] [ADDRESS..]\n'
    for words, status, out, errors in (
            ([], 0, usage, b''), (['-e'], 2, b'', usage), (['0'], 2, b'', usage), (['-e', 'script', '--flag'], 2, b'', usage),
            (['-e', 'nowhere'], 3, b'', b'a2l_why: cannot read file\n'), (['-e', '.'], 3, b'', b'a2l_why: cannot read file\n')):
        ran = run([WHY, *words])
        assert (ran.returncode, ran.stdout, ran.stderr) == (status, out, errors), (words, ran)
    with open('/dev/full', 'wb') as full:
        ran = subprocess.run([WHY, '-e', 'gcc-clean'], stdout=full, stderr=subprocess.PIPE, timeout=LIMIT)
    assert (ran.returncode, ran.stderr) == (3, b'a2l_why: write failed\n'), ran


def check_terminal():
    """Progress stands on the error stream where that is a terminal, and is taken away."""
    import pty
    ours, theirs = pty.openpty()
    ran = subprocess.run([WHY, '-e', 'large'], stdout=subprocess.PIPE, stderr=theirs, timeout=LIMIT)
    os.close(theirs)
    written = b''
    with contextlib.suppress(OSError):  # what a terminal gives when nothing is left to read
        while part := os.read(ours, 1 << 16):
            written += part
    os.close(ours)
    assert ran.returncode == 0 and b' of 6 units' in written and written.endswith(b'\r\x1b[K'), (ran, written)


def check_documents():
    """The examples of docs/WHY.md are what is written."""
    global seen
    with open(os.path.join(here, '..', 'docs', 'WHY.md'), encoding='utf-8') as read:
        text = read.read()
    blocks = [re.sub('^    ', '', block, flags=re.M) for block in re.findall(r'(?:^    .*\n)+', text, re.M)]
    inlined, mixed = (os.path.join(SAMPLES, name) for name in ('inlined.elf', 'mixed.elf'))
    page = run([WHY, '-e', inlined, '401004']).stdout.decode()
    assert f'$ a2l_why -e samples/inlined.elf 401004\n{page}' in blocks, page
    objects = [json.loads(block) for block in blocks if block.startswith('{')]
    for words in ([mixed], [inlined, '401000']):
        told = json.loads(run([WHY, '-e', *words, '--json']).stdout)
        assert told in objects, (words, told)
        seen += 1


def check_damaged():
    """A damaged file ends with a report or a refusal; with a refusal exactly where a2l refuses it, by the same number."""
    from damage import base_of, damaged
    from fields import fields_of
    from generate import Generator
    from samples import bases
    files = bases(SAMPLES, [])
    counts = [0, 0, 0]
    for index in range(COUNT):
        drawn = random.Random(f'{SEED}/{index}')
        made = drawn.random() < 0.5
        base = base_of('made at random', Generator(drawn).file(), fields_of) if made else drawn.choice(files)
        file, story = damaged(drawn, base)
        with open('damaged', 'wb') as written:
            written.write(file)
        words = [hex(drawn.choice([0x401000, 0, 2 ** 64 - 1]) + drawn.randrange(64) & 2 ** 64 - 1) for _ in range(4)]
        told = file_report('damaged')
        asked, page, status = report('damaged', *words)
        counts[{'clean': 0, 'findings': 1, 'refused': 2}[told['status']]] += 1
        assert (status == 2) == (told['status'] == 'refused'), (index, story)
        if status != 2:
            lines = ''.join(item['lines'] for item in asked['asked'])
            plain = run([A2L, '-f', '-i', '-e', 'damaged', *words])
            assert plain.stdout == lines.encode() or not plain.stdout.isascii(), (index, story, lines, plain)
    return counts


check_versions()
check_refusals()
check_pairs()
check_units()
check_dropped()
check_words()
check_terminal()
check_documents()
addresses = 0
for path in LARGER:
    addresses += check_addresses(path)
    print(f'{path}: {ADDRESSES} addresses end with what a2l answers', flush=True)
counts = check_damaged()
print(f'{seen} files told as they were built, {addresses} addresses end with what a2l answers; of {COUNT} damaged files '
      f'{counts[2]} refused, {counts[1]} with findings, {counts[0]} without')
