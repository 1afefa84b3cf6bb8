"""The producers of logs, each with the words that a2l-trace is given and the frames that have to be there."""
import os
import re
import shutil

from truth import Maps, Truth, run


def of_crash(crash):
    """Form, log, words and wanted keys of each producer, of a process that crashed."""
    log = open(crash.out + '.log', 'rb').read()
    yield 'glibc', log, [], crash.keys
    core = ['--core', crash.core]
    yield from eu_stack(crash, core)
    yield from gdb_backtrace(crash, core)
    message = coredump(crash)
    yield 'systemd-coredump', message, given(crash), crash.keys
    yield 'systemd-coredump, core', message, core, crash.keys
    returned = crash.crash.keys_of([frame for frame in crash.frames if not frame[1]])
    yield 'address', addresses(crash), ['--maps', crash.out + '.maps'], returned
    with open(crash.out + '.maps', 'rb') as maps:
        yield 'address, maps in the log', maps.read() + addresses(crash), [], returned
    yield 'tombstone', tombstone(crash), [], crash.keys
    yield 'markup', markup(crash)[0], [], crash.keys
    in_program = [key for key in crash.keys if key[0] == os.path.basename(crash.program) and crash.truth.functions[key][-1][1]]
    if crash.program != './crash-separate':
        yield 'kernel', kernel(crash), ['--module', 'vmlinux=' + crash.program], in_program


def eu_stack(crash, core):
    if not shutil.which('eu-stack'):
        yield 'eu-stack', None, [], []
        return
    yield 'eu-stack', run('eu-stack', '--core', crash.core).stdout, core, crash.keys
    log = run('eu-stack', '--core', crash.core, '-b', '-m').stdout
    # A library has only its name there.
    yield 'eu-stack -b -m', log, given(crash), crash.keys


def given(crash):
    """--module for each file that the process has."""
    words = []
    for path in dict.fromkeys(row[4] for row in crash.maps.rows):
        words += ['--module', f'{os.path.basename(path)}={path}']
    return words


def gdb_backtrace(crash, core):
    stripped = crash.program + '.stripped'
    run('strip', '--remove-section=.gnu_debuglink', crash.program, '-o', stripped)
    found = run('gdb', '-q', '-nx', '-batch', '-ex', 'set debug-file-directory /nowhere', '-ex', 'bt', stripped, crash.core)
    # Frames that have a line in gdb have none to be added.
    wanted = [key for key in crash.keys if key[0] == os.path.basename(crash.program)]
    yield 'gdb', found.stdout, core, wanted
    with open(crash.out + '.live', 'rb') as live:
        log = re.sub(rb'( in [^ ]+ \([^\n]*\)) at [^\n]*', rb'\1', live.read())
    yield 'gdb, mappings in the log', log, [], []


def addresses(crash):
    """Return addresses wherever they stand in a line."""
    return ''.join(f'frame at {pc:#x}, called\n' for pc, exact, _ in crash.frames if not exact).encode()


def tombstone(crash):
    """Lines as Android writes them, of real addresses."""
    lines = ['*** *** ***', 'backtrace:']
    for number, (pc, exact, functions) in enumerate(crash.frames):
        path, address = crash.maps.place(pc)
        if path:
            address -= 0 if exact else 1
            lines.append(f'      #{number:02} pc {address:016x}  {path} ({functions[-1][0]}+4){build_id_of(path)}')
    return ('\n'.join(lines) + '\n').encode()


def build_id_of(path, kept={}):
    if path not in kept:
        found = re.search(r'Build ID: (\w+)', run('readelf', '-n', path).stdout.decode())
        kept[path] = f' (BuildId: {found[1]})' if found else ''
    return kept[path]


def coredump(crash):
    """systemd-coredump's message; none where it isn't here, or where no namespace can be made."""
    if not os.path.exists('/lib/systemd/systemd-coredump') or run('unshare', '-m', 'true').returncode:
        return None
    script = os.path.join(os.path.dirname(os.path.abspath(__file__)), 'coredump.py')
    return run('unshare', '-m', 'python3', script, os.path.abspath(crash.core), os.path.abspath(crash.program)).stdout


def markup(crash):
    """LLVM's markup of the same frames, and the folder in which its filter finds the files by their build ids."""
    lines, ids = ['{{{reset}}}'], os.path.abspath('ids')
    paths = list(dict.fromkeys(row[4] for row in crash.maps.rows if build_id_of(row[4])))
    for number, path in enumerate(paths):
        build_id = build_id_of(path)[11:-1]
        lines.append(f'{{{{{{module:{number}:{path}:elf:{build_id}}}}}}}')
        link = f'{ids}/.build-id/{build_id[:2]}/{build_id[2:]}.debug'
        os.makedirs(os.path.dirname(link), exist_ok=True)
        debug = f'/usr/lib/debug/.build-id/{build_id[:2]}/{build_id[2:]}.debug'
        if not os.path.exists(link):
            os.symlink(debug if os.path.exists(debug) else path, link)
    for start, end, _, _, path in crash.maps.rows:
        if path in paths and crash.maps.place(start)[0]:
            address = crash.maps.place(start)[1]
            lines.append(f'{{{{{{mmap:{start:#x}:{end - start:#x}:load:{paths.index(path)}:rx:{address:#x}}}}}}}')
    for number, (pc, exact, _) in enumerate(crash.frames):
        lines.append(f'{{{{{{bt:{number}:{pc:#x}:{"pc" if exact else "ra"}}}}}}}')
    return ('\n'.join(lines) + '\n').encode(), ids


def kernel(crash):
    """An oops of the frames that are in the program, as the kernel would write it; the one that ran is behind RIP."""
    symbols = re.findall(r'(\w{16}) +(\d+) FUNC +\w+ +\w+ +\d+ (\S+)$', run('readelf', '-sW', crash.program).stdout.decode(), re.M)
    lines = []
    for pc, exact, _ in crash.frames:
        path, address = crash.maps.place(pc)
        if not path or os.path.basename(path) != os.path.basename(crash.program):
            continue
        for value, size, name in symbols:
            offset = address - int(value, 16)
            if 0 <= offset < int(size):
                register = 'RIP: 0010:' if exact else ' '
                lines.append(f'[   12.345678] {register}{name}+{offset:#x}/{int(size):#x}')
                break
    return ('\n'.join(lines) + '\n').encode()


def library_name(path):
    """The name of a library as programs have it, without the last numbers of its version."""
    return re.sub(r'(\.so\.\d+)[.\d]*$', r'\1', os.path.basename(path))


SANITIZED = {'asan': ['address', 'ASAN_OPTIONS=symbolize=0:detect_leaks=0', 'crash.c', 'tcatch syscall write'],
             'tsan': ['thread', 'TSAN_OPTIONS=symbolize=0:halt_on_error=1:abort_on_error=1', 'races.c', ''],
             'ubsan': ['undefined', 'UBSAN_OPTIONS=symbolize=0:print_stacktrace=1:halt_on_error=1:abort_on_error=1',
                       'undefined.c', '']}


def of_sanitizers(gdb):
    """The reports of clang's and gcc's sanitizers, each of a process that runs in gdb."""
    here = os.path.dirname(os.path.abspath(__file__))
    os.makedirs('plain', exist_ok=True)
    run('gcc', '-g', '-O2', '-fPIC', '-shared', here + '/library.c', '-o', 'plain/libread.so')
    for compiler in filter(shutil.which, ['clang-14', 'clang-19', 'gcc']):
        for name, (what, setting, source, stop) in SANITIZED.items():
            program = os.path.abspath(f'{name}-{compiler}')
            words = ['-Lplain', '-lread', '-Wl,-rpath,' + os.path.abspath('plain'), '-lpthread'] if name == 'asan' else []
            built = run(compiler, '-g', '-O1', '-fsanitize=' + what, f'{here}/{source}', '-o', program, *words)
            if built.returncode:
                yield f'{name} of {compiler}', None, [], None, []
                continue
            for kind in ['inlined', 'library', 'thread'] if name == 'asan' else ['none']:
                out = f'out-{name}-{compiler}-{kind}'
                variable, value = setting.split('=', 1)
                gdb(program, out, ['-ex', f'set environment {variable} {value}'], TRACE_RUN=kind, TRACE_STOPS=stop, TRACE_CORE='no')
                maps = Maps(out + '.maps')
                truth = Truth(maps, out + '.frames')
                log = open(out + '.log', 'rb').read()
                # ThreadSanitizer has only the names of files.
                files = dict.fromkeys(row[4] for row in maps.rows)
                words = [word for path in files for word in ('--module', f'{library_name(path)}={path}')]
                ours = [key for key in truth.functions if key[0] in (os.path.basename(program), 'libread.so')
                        and truth.functions[key][-1][1]]
                if name == 'asan':
                    # the last stop is in the handler, below which are all functions
                    wanted = [key for key in ours if key in truth.keys_of(truth.order[0])]
                else:
                    wanted = [key for key in ours if key in truth.keys_of(truth.order[-1])]
                yield f'{name} of {compiler}', log, words if name == 'tsan' else [], truth, wanted


def of_rust(gdb):
    """Rust's backtrace, of a stripped program: gdb has the symbols of the whole one."""
    for name, words in {'rust': [], 'rust-fixed': ['-C', 'relocation-model=static']}.items():
        source = os.path.join(os.path.dirname(os.path.abspath(__file__)), 'crash.rs')
        if not shutil.which('rustc'):
            yield 'rust', None, [], None, []
            return
        built = run('rustc', '-g', '-O', *words, source, '-o', name)
        assert built.returncode == 0, built.stderr
        run('strip', name, '-o', name + '.stripped')
        out = f'out-{name}'
        gdb(name + '.stripped', out, ['-ex', f'symbol-file {name}', '-ex', 'set environment RUST_BACKTRACE full'], TRACE_RUN='panic',
            TRACE_STOPS='catch syscall write', TRACE_CORE='no')
        truth = Truth(Maps(out + '.maps'), out + '.frames', rename={name + '.stripped': name})
        words = ['--maps', out + '.maps', '--module', f'{name}.stripped={os.path.abspath(name)}']
        # It writes while it unwinds: what called it is below.
        outer = [key for key, functions in truth.functions.items() if (functions[-1][0] or '').endswith(('outer', 'main'))]
        wanted = [key for key in outer if key[0] == name and truth.functions[key][-1][1]]
        assert wanted
        yield 'rust', open(out + '.log', 'rb').read(), words, truth, wanted


def of_others(gdb):
    yield from of_sanitizers(gdb)
    yield from of_rust(gdb)
