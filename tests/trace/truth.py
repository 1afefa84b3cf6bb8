"""What gdb says of a process, and whether rows of a2l-trace say the same."""
import collections
import json
import os
import re
import subprocess


def run(*words, **more):
    return subprocess.run(words, capture_output=True, timeout=300, **more)


def segments(path, kept={}):
    """The LOAD segments of a file: offset, address, size in the file, whether it is executable."""
    if path not in kept:
        text = run('readelf', '-lW', path).stdout.decode()
        found = re.findall(r'LOAD\s+0x(\w+) 0x(\w+) 0x\w+ 0x(\w+) 0x\w+ (.{3})', text)
        kept[path] = [(int(a, 16), int(b, 16), int(c, 16), 'E' in d) for a, b, c, d in found]
    return kept[path]


class Maps:
    """The mappings of a process."""

    def __init__(self, path):
        self.rows = []
        for line in open(path):
            words = line.split(maxsplit=5)
            if len(words) == 6 and words[5].startswith('/'):
                start, end = (int(word, 16) for word in words[0].split('-'))
                self.rows.append((start, end, 'x' in words[1], int(words[2], 16), words[5].strip()))

    def place(self, address):
        """The path of the file at an address, and the address that the file has for it."""
        for start, end, executable, offset, path in self.rows:
            if start <= address < end:
                at = address - start + offset
                for begin, first, size, flag in segments(path):
                    if flag == executable and begin // 4096 * 4096 <= at < begin + size:
                        return path, at - begin + first
        return None, None


def physical(stop):
    """The frames of a stop: each with its address, whether that is exact, and its functions. gdb makes frames of its own
    for tail calls, of which nobody else knows."""
    found, functions, exact = [], [], True
    for frame in stop:
        if frame['pc'] < 4096:
            break
        if frame['kind'] == 'tail call':
            continue
        functions.append((frame['function'], frame['file'], frame['line']))
        if frame['kind'] == 'inline':
            continue
        is_signal = frame['kind'] == 'signal'
        found.append((frame['pc'], exact or is_signal, functions))
        functions, exact = [], is_signal
    return found


class Truth:
    """By file and address, the functions that gdb shows there."""

    def __init__(self, maps, *texts, rename={}):
        self.maps, self.functions, self.order, self.tail_calls = maps, {}, [], set()
        for text in texts:
            for stop in json.load(open(text)):
                for frame in stop:
                    if frame['kind'] == 'tail call':
                        path, address = maps.place(frame['pc'])
                        self.tail_calls.add((os.path.basename(path or ''), (address or 0) - 1))
                found = physical(stop)
                self.order.append(found)
                for pc, exact, functions in found:
                    path, address = maps.place(pc)
                    if path:
                        name = os.path.basename(path)
                        key = rename.get(name, name), address if exact else address - 1
                        # Where gdb stops it hides functions that begin there.
                        if len(functions) > len(self.functions.get(key, ())):
                            self.functions[key] = functions

    def keys_of(self, frames):
        """The files and addresses of frames."""
        places = ((self.maps.place(pc), exact) for pc, exact, _ in frames)
        return {(os.path.basename(path), address if exact else address - 1) for (path, address), exact in places if path}


def plain_name(name):
    """A name without parameters, type and arguments of templates, which gdb and linkage names have differently."""
    name = re.sub(r'\(anonymous namespace\)|\{[^{}]*\}', 'X', name or '')
    while (shorter := re.sub(r'<[^<>]*>', '', name)) != name:
        name = shorter
    name = re.sub(r'\(.*\)( const)?$', '', name)
    return re.sub(r'^_+(GI_+)?', '', name.split(' ')[-1].split('::')[-1].split('@')[0])


def plain_path(path):
    return os.path.normpath(re.sub(r'^\./', '', path)) if path else None


def is_same_function(ours, theirs):
    function, path, line = theirs
    if path is None:
        return True
    name = ours['function']
    same_name = plain_name(name) == plain_name(function) or {name, function} <= ALIASES
    a, b = plain_path(ours['file']), plain_path(path)
    return same_name and a is not None and (a == b or a.endswith('/' + b) or b.endswith('/' + a)) and ours['line'] == line


ALIASES = {'raise', '__GI_raise', 'gsignal'}


class Count:
    """How many frames of a form agreed, and how many differed for a reason."""

    def __init__(self):
        self.rows, self.failures = collections.defaultdict(collections.Counter), []

    def add(self, form, what, more=1):
        self.rows[form][what] += more

    def fail(self, form, why):
        self.failures.append(f'{form}: {why}')

    def compare(self, form, rows, truth, wanted, what=''):
        """Compares the rows of a log. Of `wanted`, the keys of frames, each has to have a row."""
        seen = set()
        for row in rows:
            key = (os.path.basename(row['file'] or '?'), int(row['address'] or '0', 16))
            seen.add(key)
            theirs = truth.functions.get(key)
            if theirs is None and key in truth.tail_calls:
                self.add(form, "of gdb's for a tail call")
            elif theirs is None and row['file'] is None:
                self.add(form, 'of no module')
            elif theirs is None and self.is_borne_out(row):
                self.add(form, 'of another stack, as llvm-symbolizer has it')
            elif theirs is None:
                self.fail(form, f'{what} {key[0]} {key[1]:#x}: {row["frames"]}, in no backtrace')
            elif len(theirs) == len(row['frames']) and all(map(is_same_function, row['frames'], theirs)):
                self.add(form, 'same' if theirs[-1][1] else 'same, without lines')
            elif self.is_borne_out(row):
                self.add(form, 'as llvm-symbolizer has it')
            elif theirs[-1][1] is None:
                self.add(form, 'same, without lines')
            else:
                self.fail(form, f'{what} {key[0]} {key[1]:#x}: {row["frames"]} and gdb {theirs}')
        for key in wanted:
            if key not in seen:
                self.fail(form, f'{what}: no row of {key[0]} {key[1]:#x} {truth.functions.get(key)}')

    def is_borne_out(self, row):
        """LLVM's reader has the same functions and lines there, but that it names the outermost function by the last symbol
        of its address."""
        text = run('llvm-symbolizer-19', '--output-style=JSON', '--inlines', '-e', row['file'], row['address']).stdout
        try:
            theirs = json.loads(text)[0]['Symbol']
        except (ValueError, KeyError, IndexError):
            return False
        names = [(plain_name(a['function']), plain_name(b['FunctionName'])) for a, b in zip(row['frames'], theirs)]
        return len(theirs) == len(row['frames']) and all(a == b for a, b in names[:-1]) and all(
            a['line'] == (b['Line'] or None) for a, b in zip(row['frames'], theirs))
