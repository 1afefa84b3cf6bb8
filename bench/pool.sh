#!/usr/bin/env bash
# How long a pool takes to answer with one worker and with four, and one context without a pool, on a large program with
# random addresses of .text, in the order in which a2l asks them; and four processes of one context each, which is what the
# machine gives at most. The first word is as for bench.sh, best `many`; the others are numbers of
# addresses (10,000, 100,000 and a million without). What is timed is answering alone, with the threads and the contexts
# that are made for it; beside it stands the processors' time. The least of three times counts. A second table has whole
# runs of a2l with more threads than processors, alone and beside work that keeps all processors busy. Run it after
# `rt run` in crates/a2l has built the crates. It prints the tables, and tests that no run fails.
. "$(dirname "$0")/../tests/programs.sh"
need_a2l
large=${1:-60}
[ $# -gt 0 ] && shift
[ $# -gt 0 ] || set -- 10000 100000 1000000
need_large "$large"

copy_proved dw_model dw_index dw_bytes ticket_core ticket_board dw_elf dw_forms dw_units dw_ranges dw_line dw_frames dw_symbols a2l_lines
mkdir -p copy/crates/pool_time/src
echo 'pool_time: dw_symbols ticket_core ticket_board a2l_lines' >> copy/crates.txt
cat > copy/crates/pool_time/src/main.rt <<'END'
//! Answers addresses of a file by a pool of so many workers, or by one context for 0: so many random addresses, from one to
//! another. It says when it begins and when it has ended.
#![tactic(auto)]

use a2l_lines::{Crew, Plan, in_order, run_pool};
use dw_symbols::{Answer, Context, Image};
use std::alloc::{AllocError, Global};
use std::io::Write;
use std::num::NonZeroUsize;
use std::process::ExitCode;
use std::sync::Wait;
use std::thread::Threads;
use std::{env, fs, io};
use ticket_board::Gate;
use ticket_core::{Query, Shape};

/// A gate that stands open.
struct Open;

impl Gate for Open {
    fn enter(&self, _sender: usize, _number: u64, _query: Query) {}
}

/// So many random addresses, in the order in which they are best asked.
fn addresses(alloc: Global, image: &Image<'_>, crew: Crew, count: u64, begin: u64, end: u64) -> Result<Vec<Query>, AllocError> {
    let mut drawn = Vec::new(alloc);
    let size = end.wrapping_sub(begin);
    let mut state = 1u64;
    for _ in 0..count {
        state = state.wrapping_mul(6364136223846793005).wrapping_add(1442695040888963407);
        let distance = (state >> 20).checked_rem(size).unwrap_or(0);
        drawn.push(Query::address(begin.wrapping_add(distance)))?;
    }
    let plan = Plan::new(alloc, image, &drawn, crew)?;
    let queries = in_order(alloc, &drawn, &plan.order)?;
    Ok(queries)
}

fn say(rt: &HostRuntime, word: &str) -> Option<()> {
    let mut out = io::writer(rt);
    writeln!(out, "{word}").ok()?;
    out.flush().ok()?;
    Some(())
}

/// Without a pool.
fn direct<'a>(alloc: Global, image: &Image<'a>, queries: &[Query]) -> Option<Vec<Answer<'a>>> {
    let capacity = NonZeroUsize::MIN.saturating_add(15);
    let mut context = Context::new(alloc, image, capacity).ok()?;
    let mut answers = Vec::new(alloc);
    for query in queries {
        answers.push(context.find_frames(query.first()).ok()?).ok()?;
    }
    Some(answers)
}

fn answered<T: Threads + Wait + Sync>(rt: &HostRuntime, threads: &T, words: &[String]) -> Option<()> {
    let file = fs::read(rt, words.first()?).ok()?;
    let image = Image::open(rt.alloc(), &file).ok()?;
    let workers = words.get(1)?.parse::<u64>().ok()?;
    let count = words.get(2)?.parse::<u64>().ok()?;
    let begin = words.get(3)?.parse::<u64>().ok()?;
    let end = words.get(4)?.parse::<u64>().ok()?;
    let crew = Crew::new(threads, workers as usize);
    let queries = addresses(rt.alloc(), &image, crew, count, begin, end).ok()?;
    let shape = Shape {
        senders: 1,
        workers: workers as usize,
        window: 16,
        most: 1 << 60,
    };
    say(rt, "begun")?;
    let answers = if workers == 0 {
        direct(rt.alloc(), &image, &queries)?
    } else {
        run_pool(threads, rt.alloc(), &image, shape, &queries, &Open).ok()?
    };
    say(rt, "ended")?;
    if answers.len() != queries.len() {
        return None;
    }
    Some(())
}

fn main(rt: HostRuntime) -> ExitCode {
    let Ok(words) = env::args(&rt) else {
        return ExitCode::from(2);
    };
    let Ok(words) = words.skip(1).collect::<Vec<String>>(rt.alloc()) else {
        return ExitCode::from(2);
    };
    let Some(()) = answered(&rt, &rt, words.as_slice()) else {
        return ExitCode::from(1);
    };
    ExitCode::from(0)
}
END
(cd copy/crates/pool_time && rt run -- "$program" 1 1 0 1) > log 2>&1 || { tail -20 log; exit 1; }

cat > time.py <<'END_PY'
import os, subprocess, sys, time
tool, program, begin, end, *counts = sys.argv[1:]

def begin_run(workers, count):
    run = subprocess.Popen([tool, program, str(workers), count, begin, end], stdout=subprocess.PIPE, text=True)
    assert run.stdout.readline() == 'begun\n'
    return run, time.monotonic()

def processor_time(run):
    """Of all its threads, those that ended too, in seconds."""
    with open(f'/proc/{run.pid}/stat') as stat:
        fields = stat.read().rsplit(')', 1)[1].split()
    return (int(fields[11]) + int(fields[12])) / os.sysconf('SC_CLK_TCK')

def end_run(run, began):
    used = processor_time(run)
    assert run.stdout.readline() == 'ended\n'
    seconds = time.monotonic() - began
    used = processor_time(run) - used
    assert run.wait() == 0
    return seconds, used

def timed(workers, count):
    return min(end_run(*begin_run(workers, count)) for _ in range(3))

print(f"{'addresses':>10} {'no pool':>10} {'one worker':>12} {'four workers':>14}   four beside one, in time and in processor time")
for count in counts:
    (none, _), (one, one_used), (four, four_used) = timed(0, count), timed(1, count), timed(4, count)
    print(f'{count:>10} {none:8.3f} s {one:10.3f} s {four:12.3f} s {one / four:10.2f} times as fast {four_used / max(one_used, 0.01):10.2f} times', flush=True)
count = counts[len(counts) // 2]
alone = timed(0, count)[0]
runs = [begin_run(0, count) for _ in range(4)]
together = max(end_run(*run)[0] for run in runs)
print(f'four processes without a pool, {count} addresses each: {4 * alone / together:.2f} times the answers of one')
END_PY
read -r begin end < <(objdump -h "$program" | awk '$2 == ".text" { print $4, $3 }')
begin=$((16#$begin))
end=$((begin + 16#$end))
python3 time.py copy/crates/pool_time/out/pool_time "$program" "$begin" "$end" "$@"

cat > threads.py <<'END_PY'
import os, random, statistics, subprocess, sys, time
tool, program, begin, end = sys.argv[1:]
RUNS = 5
draws = random.Random(1)
drawn = draws.sample(range(int(begin), int(end)), min(344_465, int(end) - int(begin)))
inputs = {}
for count in (10_000, 100_000, len(drawn)):
    inputs[count] = f'addresses{count}'
    with open(inputs[count], 'w') as lines:
        lines.writelines(f'{address:x}\n' for address in drawn[:count])
only = {min(os.sched_getaffinity(0))}

def timed(count, workers, senders, processors):
    """Of a run its seconds, its processor time, and its changes from one thread to another for each address."""
    words = [tool, '-e', program, '--workers', str(workers), '--senders', str(senders)]
    pin = (lambda: os.sched_setaffinity(0, processors)) if processors else None
    began = time.monotonic()
    run = subprocess.Popen(words, stdin=open(inputs[count]), stdout=subprocess.DEVNULL, preexec_fn=pin)
    _, status, used = os.wait4(run.pid, 0)
    seconds = time.monotonic() - began
    run.returncode = os.waitstatus_to_exitcode(status)
    assert run.returncode == 0
    return seconds, used.ru_utime + used.ru_stime, (used.ru_nvcsw + used.ru_nivcsw) / count

def stolen():
    """For how many seconds the host has taken processors from this machine."""
    with open('/proc/stat') as stat:
        return int(stat.readline().split()[8]) / os.sysconf('SC_CLK_TCK')

def pair(count, many, few, processors):
    """Two runs, one after the other, after the part of their time that the host took."""
    before, began = stolen(), time.monotonic()
    runs = timed(count, *many, processors), timed(count, *few, processors)
    return (stolen() - before) / (time.monotonic() - began), runs

def row(name, count, many, few, processors=None):
    """Two pools beside each other, in alternating runs; each pool is its workers and its senders."""
    pairs = sorted(pair(count, many, few, processors) for _ in range(3 * RUNS))
    runs = [runs for _, runs in pairs[:RUNS]]
    (time_many, used_many, changes), (time_few, used_few, _) = (
        [statistics.median(part) for part in zip(*side)] for side in zip(*runs))
    print(f'{name:>20} {count:>9} {many[0]:>4} and {many[1]:<3} {few[0]:>4} and {few[1]:<3} {time_many:7.3f} s {time_few:7.3f} s '
          f'{time_many / time_few:5.2f} times {used_many / used_few:10.2f} times {changes:8.2f}', flush=True)

print('the medians of alternating runs, of the third from which the host took least: many workers and senders, few, and how')
print('many times as long the many take')
print(f"{'processors':>20} {'addresses':>9} {'many':>12} {'few':>12} {'time':>9} {'':>9} {'':>11} {'processor time':>16} {'switches':>8}")
_, large = list(inputs)[1:]
for count in (100_000, large):
    row('one', count, (64, 1), (1, 1), only)
row('one', 100_000, (64, 64), (1, 1), only)
for count in (100_000, large):
    row('all', count, (64, 1), (4, 1))
for count in (10_000, large):
    row('all', count, (4, 1), (1, 1))
load = [subprocess.Popen([sys.executable, '-c', 'while True: pass']) for _ in range(os.cpu_count())]
try:
    row('all, busy', 100_000, (16, 1), (1, 1))
    row('all, busy', 100_000, (64, 1), (4, 1))
    row('one, busy', 100_000, (64, 1), (1, 1), only)
    row('one, busy', 100_000, (64, 64), (1, 1), only)
finally:
    for work in load:
        work.kill()
END_PY
echo
python3 threads.py "$a2l" "$program" "$begin" "$end"
