"""Runs programs that crash, and compares what a2l-trace makes of each producer's output with gdb's backtrace of the same
process. The words are the program a2l-trace, the folder of the built programs, and a pattern: only such programs are tried."""
import glob
import json
import os
import re
import sys

import judges
import producers
from truth import Count, Maps, Truth, run

HERE = os.path.dirname(os.path.abspath(__file__))
TRACE, ONLY = sys.argv[1], sys.argv[3]
os.chdir(sys.argv[2])
KINDS = ['inlined', 'library', 'handler', 'thread', 'constructor']
# These differ in how they are built, so that fewer crashes tell them apart.
FEWER = {'crash-gcc-fixed': 3, 'crash-gcc-hole': 2, 'crash-separate': 2, 'crash-lld': 2, 'crash-g++': 3}


def gdb(program, out, words=(), **variables):
    """Runs gdb's script."""
    environment = {**os.environ, 'TRACE_OUT': out, 'DEBUGINFOD_URLS': '', **variables}
    found = run('gdb', '-q', '-nx', '-batch', *words, '-x', HERE + '/in_gdb.py', program, env=environment)
    if not os.path.exists(out + '.frames'):
        sys.exit(f'gdb: {program}: {found.stdout.decode()[-800:]}{found.stderr.decode()[-800:]}')


def rows(log, *words):
    """The rows of a log."""
    found = run(TRACE, '--json', *words, input=log)
    assert found.returncode == 0, found.stderr
    return [json.loads(line) for line in found.stdout.splitlines()]


def check_text(log, *words):
    """The text comes out whole: what is below lines is indented, and without it the log is as it was."""
    found = run(TRACE, *words, input=log).stdout
    left, lines = found.splitlines(True), log.splitlines(True)
    at = 0
    for line in left:
        if at < len(lines) and line == lines[at]:
            at += 1
        else:
            assert line.startswith(b' ' * 8), line
    assert at == len(lines), (at, len(lines))


class Crash:
    """A process that crashed in gdb, with what gdb and glibc say of it."""

    def __init__(self, program, kind):
        self.program, self.kind, self.out = program, kind, f'out-{os.path.basename(program)}-{kind}'
        words = ['-ex', 'set environment CRASH_EARLY 1'] if kind == 'constructor' else []
        live = f'{TRACE} --json --pid PID < {self.out}.live > {self.out}.pid'
        gdb(program, self.out, words, TRACE_RUN=kind, TRACE_STOPS='break backtrace', TRACE_LIVE=live)
        gdb(program, self.out + '-core', ['-ex', f'core-file {self.out}.core'])
        self.maps = Maps(self.out + '.maps')
        self.truth = Truth(self.maps, self.out + '.frames', self.out + '-core.frames')
        # the thread that crashed is the first one of the core file
        self.crash = Truth(self.maps, self.out + '-core.frames')
        self.frames = self.crash.order[0]
        self.keys = [key for key in self.crash.functions if key in self.crash.keys_of(self.frames)]

    @property
    def core(self):
        return self.out + '.core'


def main():
    count = Count()
    programs = sorted(name for name in glob.glob('crash-*') if '.' not in name and re.search(ONLY, name))
    for program in programs:
        for kind in KINDS[:FEWER.get(program)]:
            crash = Crash('./' + program, kind)
            for form, log, words, wanted in producers.of_crash(crash):
                if log is None:
                    count.add(form, 'skipped')
                    continue
                check_text(log, *words)
                count.compare(form, rows(log, *words), crash.truth, wanted, f'{program} {kind}')
            judges.of_markup(count, crash, rows)
            if program in ('crash-gcc', 'crash-gcc-fixed'):
                judges.of_kernel(count, crash, TRACE)
    for form, log, words, truth, wanted in producers.of_others(gdb):
        if log is None:
            count.add(form, 'skipped')
            continue
        check_text(log, *words)
        count.compare(form, rows(log, *words), truth, wanted, form)
    for form, counts in sorted(count.rows.items()):
        print(f'{form}: ' + ', '.join(f'{number} {what}' for what, number in sorted(counts.items())))
    for failure in count.failures[:40]:
        print('FAILED', failure)
    same = sum(counts['same'] for counts in count.rows.values())
    print(f'{same} frames of {len(count.rows)} forms are as in gdb, {len(count.failures)} are not')
    sys.exit(bool(count.failures) or same == 0)


main()
