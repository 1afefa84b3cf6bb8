"""What the addresses of a program mean, by three ways that know nothing of one another.

`Program` makes the answers of docs/MEANING.md from what readelf (entries, names, references, calls) and
llvm-dwarfdump (ranges, rows, files) show. `a2l`, `gnu` and `llvm` run the symbolizers. An answer is a list of
frames, innermost first; a frame is a name, a path and a line, with `??` and 0 for what isn't known.
"""
import bisect, collections, functools, heapq, json, os.path, re, subprocess

NONE = ('??', '??', 0)


def output(words, **more):
    return subprocess.run(words, capture_output=True, text=True, errors='surrogateescape', **more)


def shown(words):
    ran = output(words)
    assert ran.returncode == 0, (words, ran.stderr[:300])
    return ran.stdout.split('\n')


def shown_for(words, given):
    """The lines that are written for an input."""
    ran = output(words, input=given)
    assert ran.returncode == 0, (words, ran.stderr[:300])
    return ran.stdout.split('\n')[:-1]


class Entry:
    """A function, or a place where one was inlined."""

    def __init__(self, offset, tag, values):
        self.offset, self.tag, self.values = offset, tag, values
        self.inlined = []

    def number(self, name):
        found = self.values.get(name)
        return int(found[1].split()[0], 0) if found else None

    def is_indexed(self):
        """Whether the ranges are a list that is named by its index."""
        return self.values.get('DW_AT_ranges', ('',))[0] == 'rnglistx'


class Unit:
    def __init__(self, offset):
        self.offset, self.version, self.kind = offset, 0, 'skipped'
        self.root, self.subprograms = None, []
        self.is_supplied = False  # some value stands in a supplementary file
        self.is_type = False
        self.is_wide = False  # of the 64-bit format

    def is_read(self):
        return self.version == 5 and self.kind in ('compile', 'skeleton')


class Least:
    """The least owner of each of some sorted addresses."""

    def __init__(self, owned, addresses):
        self.found = {}
        waiting, held = sorted(owned), []
        place = 0
        for a in addresses:
            while place < len(waiting) and waiting[place][0] <= a:
                begin, end, owner = waiting[place]
                heapq.heappush(held, (owner, end))
                place += 1
            while held and held[0][1] <= a:
                heapq.heappop(held)
            if held:
                self.found[a] = held[0][0]


class Table:
    """A line table: its paths and its used sequences, and whether it has the 64-bit format."""

    def __init__(self, text):
        self.is_wide = bool(re.search(r'^ +format: DWARF64$', text, re.M))
        directories = re.findall(r'^include_directories\[ *\d+\] = "(.*)"$', text, re.M)
        files = re.findall(r'^file_names\[ *\d+\]:\n +name: "(.*)"\n +dir_index: (\d+)$', text, re.M)
        self.paths = []
        for name, directory in files:
            path = directories[0] if directories else ''
            if 0 < int(directory) < len(directories):
                path = os.path.join(path, directories[int(directory)])
            self.paths.append(os.path.join(path, name))
        # rows: address, file, line, and whether all rows of the sequence up to this one are of file 1
        self.sequences, rows = [], []
        for row in re.finditer(r'^0x([0-9a-f]{16}) +(\d+) +\d+ +(\d+) (.*)$', text, re.M):
            unset = int(row[3]) == 1 and (not rows or rows[-1][3])
            rows.append((int(row[1], 16), int(row[3]), int(row[2]), unset))
            if 'end_sequence' in row[4]:
                at = [row[0] for row in rows]
                if at == sorted(at) and at[0] < at[-1]:
                    self.sequences.append((at, rows))
                rows = []

    def path(self, n):
        return self.paths[n] if n is not None and n < len(self.paths) else '??'

    def rows(self, a):
        """The rows of the sequences that hold an address, in the program's order."""
        for at, rows in self.sequences:
            if at[0] <= a < at[-1]:
                yield rows[bisect.bisect_right(at, a) - 1]


class Program:
    def __init__(self, path):
        self.path = path
        self.entries, self.units = {}, []
        self.read_entries()
        self.ranges = collections.defaultdict(list)
        self.read_ranges()
        lines = '\n'.join(shown(['llvm-dwarfdump', '--debug-line', path]))
        parts = re.split(r'^debug_line\[0x([0-9a-f]+)\]$', lines, flags=re.M)
        read = {unit.root.offset for unit in self.units if unit.is_read()}
        self.skipped = [pair for first in self.first if first not in read for pair in self.ranges[first]]
        self.tables = {int(offset, 16): Table(text) for offset, text in zip(parts[1::2], parts[2::2])}
        self.read_sections()

    def read_entries(self):
        of_info, unit, around = False, None, []
        for line in shown(['readelf', '--wide', '--debug-dump=no-follow-links', '--debug-dump=info', self.path]):
            if line.startswith('    <'):
                found = re.match(r' +<\w+> +(DW_AT_\w+) *: \((\w+)\) ?(.*)', line)
                if found and values is not None:
                    unit.is_supplied |= found[2].startswith('GNU_')
                    text = re.sub(r'^\((?:offset|index|addr_index|alt indirect string, offset): \w+\): ', '', found[3])
                    if found[2] == 'ref8':
                        # readelf shows other references in angle brackets
                        text = re.sub(r'^(0x[0-9a-f]+).*', r'<\1>', text)
                    values.setdefault(found[1], (found[2], text.rstrip()))
            elif line.startswith(' <'):
                found = re.match(r' <(\w+)><(\w+)>: Abbrev Number: (\d+)(?: \((\w+)\))?', line)
                if not of_info or not found or found[3] == '0' or unit.kind == 'skipped':
                    values = None
                    continue
                values = {}
                depth, offset, tag = int(found[1]), int(found[2], 16), found[4]
                entry = self.entries[offset] = Entry(offset, tag, values)
                if unit.root is None:
                    unit.root = entry
                while around and around[-1][0] >= depth:
                    around.pop()
                if tag == 'DW_TAG_inlined_subroutine' and around:
                    around[-1][1].inlined.append(entry)
                if tag == 'DW_TAG_subprogram':
                    unit.subprograms.append(entry)
                if tag in ('DW_TAG_subprogram', 'DW_TAG_inlined_subroutine'):
                    around.append((depth, entry))
            elif line.startswith('Contents of the '):
                of_info = line.split()[3] == '.debug_info'
            elif of_info and 'Compilation Unit @ offset' in line:
                unit, around, values = Unit(int(line.split()[-1].rstrip(':'), 16)), [], None
                self.units.append(unit)
            elif of_info and line.startswith('   Length:'):
                unit.is_wide = line.rstrip().endswith('(64-bit)')
            elif of_info and line.startswith('   Version:'):
                unit.version = int(line.split()[1])
            elif of_info and line.startswith('   Unit Type:') and unit.version == 5:
                kind = line.split()[2][6:]
                unit.is_type = kind == 'type'
                unit.kind = kind if kind in ('compile', 'partial', 'skeleton') else 'skipped'

    def read_ranges(self):
        at = low = None
        self.first = []
        for line in shown(['llvm-dwarfdump', '--debug-info', self.path]):
            entry = re.match(r'0x(\w+):( +)DW_TAG', line)
            if entry:
                at, low, of_list = int(entry[1], 16), None, False
                if len(entry[2]) == 1:
                    self.first.append(at)
                continue
            pair = re.match(r'\s+\[0x(\w+), 0x(\w+)\)', line)
            value = re.match(r'\s+(DW_AT_\w+)\t\((?:0x(\w+)\))?', line)
            if pair and of_list:
                self.add_range(at, int(pair[1], 16), int(pair[2], 16))
            elif value:
                of_list = value[1] == 'DW_AT_ranges'
                if value[1] == 'DW_AT_low_pc':
                    low = int(value[2], 16)
                elif value[1] == 'DW_AT_high_pc' and low is not None:
                    self.add_range(at, low, int(value[2], 16))

    def add_range(self, at, begin, end):
        if begin < end:
            self.ranges[at].append((begin, end))

    def read_sections(self):
        """The sections of code, and the symbols, also those that objdump makes of the procedure linkage table."""
        self.code, self.symbols, self.linkage, self.files = [], [], [], {'??', ''}
        for line in shown(['readelf', '--wide', '--section-headers', self.path]):
            found = re.match(r' +\[ *\d+\] \S+ +\w+ +(\w{16}) \w+ (\w+) \w\w +(\w*)', line)
            if found and 'X' in found[3]:
                begin, size = int(found[1], 16), int(found[2], 16)
                self.code.append((begin, begin + size))
        for line in shown(['readelf', '--wide', '--symbols', self.path]):
            words = line.split()
            if len(words) >= 8 and words[3] in ('FUNC', 'NOTYPE', 'OBJECT', 'IFUNC') and words[6] != 'UND':
                self.symbols.append((int(words[1], 16), int(words[2], 0), words[7].split('@')[0]))
            elif len(words) >= 8 and words[3] == 'FILE':
                self.files.add(words[7])
        of_table = ['--section=' + name for name in ('.plt', '.plt.got', '.plt.sec', '.iplt')]
        for line in output(['objdump', '--disassemble', *of_table, self.path]).stdout.split('\n'):
            found = re.match(r'([0-9a-f]{16}) <(.*)>:$', line)
            if found:
                self.linkage.append((int(found[1], 16), 16, found[2].split('@')[0]))

    def is_code(self, a):
        return any(begin <= a < end for begin, end in self.code)

    def is_skipped(self, a):
        """Whether an address lies in a unit that isn't read."""
        return any(begin <= a < end for begin, end in self.skipped)

    def symbols_over(self, ranges):
        """The names of the symbols that hold an address of some ranges."""
        return {name for at, size, name in self.symbols if any(at < end and begin < at + size for begin, end in ranges)}

    @functools.lru_cache(None)
    def symbols_at(self, a):
        """The names of the symbols that hold an address, and of those that begin last before it."""
        last = max((at for at, _, _ in self.symbols if at <= a), default=None)
        return {name for at, size, name in self.symbols + self.linkage if at <= a < at + size or at == last}

    def ask(self, addresses):
        """Finds the unit and the subprogram of each of some sorted addresses."""
        owned = []
        for n, unit in enumerate(self.units):
            if unit.is_read():
                owned += [(begin, end, n) for begin, end in self.ranges[unit.root.offset]]
        self.unit_at = Least(owned, addresses).found
        by_unit = collections.defaultdict(list)
        for a in addresses:
            if a in self.unit_at:
                by_unit[self.unit_at[a]].append(a)
        self.subprogram_at = {}
        for n, asked in by_unit.items():
            owned = []
            for m, entry in enumerate(self.units[n].subprograms):
                owned += [(begin, end, m) for begin, end in self.ranges[entry.offset]]
            for a, m in Least(owned, asked).found.items():
                self.subprogram_at[a] = self.units[n].subprograms[m]

    def holds(self, entry, a):
        return any(begin <= a < end for begin, end in self.ranges[entry.offset])

    def chain(self, a):
        """The functions at an address, innermost first."""
        chain, entry = [], self.subprogram_at.get(a)
        while entry:
            chain.insert(0, entry)
            entry = next((inner for inner in entry.inlined if self.holds(inner, a)), None)
        return chain

    def named(self, entry):
        """The entry that gives the name, and the attribute."""
        for _ in range(17):
            if not entry:
                break
            for name in ('DW_AT_linkage_name', 'DW_AT_name'):
                if name in entry.values and not entry.values[name][0].startswith('GNU_'):
                    return entry, name
            to = entry.values.get('DW_AT_abstract_origin') or entry.values.get('DW_AT_specification')
            found = to and re.fullmatch(r'<(?:0x)?([0-9a-f]+)>', to[1])
            entry = found and self.entries.get(int(found[1], 16))
        return None, None

    def name(self, entry):
        of, name = self.named(entry)
        return of.values[name][1] if of else '??'

    def table(self, a):
        offset = self.units[self.unit_at[a]].root.number('DW_AT_stmt_list')
        return self.tables.get(offset)

    def row(self, a):
        table = self.table(a)
        return next(table.rows(a), None) if table else None

    def frames(self, a, chain=None):
        """The answer; with a chain, what it would be if those were the functions."""
        if a not in self.unit_at:
            return [NONE]
        table, row = self.table(a), self.row(a)
        place = (table.path(row[1]), row[2]) if row else ('??', 0)
        frames = []
        for entry in self.chain(a) if chain is None else chain:
            frames.append((self.name(entry), *place))
            line = entry.number('DW_AT_call_line') or 0
            place = (table.path(entry.number('DW_AT_call_file')) if table else '??', line)
        return frames or [('??', *place)]


def blocks(words, addresses):
    """What a symbolizer that writes addresses says of each."""
    ran = output(words, input=''.join(f'{a:#x}\n' for a in addresses))
    assert ran.returncode in (0, 1), (words, ran.stderr[:300])
    found = []
    for line in ran.stdout.split('\n')[:-1]:
        if re.fullmatch('0x[0-9a-f]{16}', line):
            found.append([])
        else:
            found[-1].append(line)
    assert len(found) == len(addresses), (words, len(found), ran.stderr[:300])
    return found


def frame(name, place):
    path, _, line = re.sub(r' \(discriminator \d+\)$', '', place).rpartition(':')
    return name, path, 0 if line == '?' else int(line)


def in_pairs(found):
    return [[frame(*pair) for pair in zip(lines[::2], lines[1::2])] for lines in found]


def a2l(program, path, addresses):
    found = blocks([program, '-e', path, '-a', '-f', '-i'], addresses)
    assert not any(lines[0].startswith('!') for lines in found), [lines for lines in found if lines[0][0] == '!'][0]
    return in_pairs(found)


def gnu(path, addresses):
    return in_pairs(blocks(['addr2line', '-e', path, '-a', '-f', '-i'], addresses))


def llvm_symbols(path, addresses):
    """What llvm-symbolizer says of each address: its frames, innermost first, or none."""
    ran = output(['llvm-symbolizer', '-e', path, '--output-style=JSON', '--no-demangle'],
                 input=''.join(f'{a:#x}\n' for a in addresses))
    found = [json.loads(line) for line in ran.stdout.split('\n')[:-1]]
    assert len(found) == len(addresses), (path, len(found), ran.stderr[:300])
    return [answer.get('Symbol', []) for answer in found]


def llvm(path, addresses):
    return [[(s['FunctionName'] or '??', s['FileName'] or '??', s['Line']) for s in symbols] or [NONE]
            for symbols in llvm_symbols(path, addresses)]


def llvm_places(path, addresses):
    """The location of each address as a2l writes it, and its column."""
    return [(f"{s['FileName'] or '??'}:{s['Line'] or ('?' if s['FileName'] else 0)}", s['Column'])
            for s in (symbols[0] if symbols else {'FileName': '', 'Line': 0, 'Column': 0}
                      for symbols in llvm_symbols(path, addresses))]
