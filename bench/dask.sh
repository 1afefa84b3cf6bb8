#!/usr/bin/env bash
# The job for Dask, examples/dask, with 1, 2 and 4 workers on this machine, over twenty programs: its time, the share of
# the workers' time that isn't symbolizing, and their memory; with 2 workers of which one is killed in the middle; and
# examples/parallel.sh beside it. The programs are linked of half of as many units of templates as the first word says
# (24 without), or they are program1 to program20 of the folder that it names, and each is asked for as many different
# addresses as the second word says (20,000 without), each with a count. It prints a line for each number of workers,
# and tests that all runs have the same rows, when sorted. Run it after `make shared` and `rt run` in crates/a2l. It
# needs Debian's python3-distributed.
. "$(dirname "$0")/../tests/programs.sh"
need_a2l
units=${1:-24}
count=${2:-20000}
/usr/bin/python3 -c 'import distributed' || { echo "no python3-distributed here"; exit 1; }
[ -f "$here/out/liba2l.so" ] || { echo "build the library first: make shared"; exit 1; }
# Program i has the units from i on, half of them.
build_twenty() {
    local i k chosen
    write_large "$units"
    echo 'int main() { return 0; }' > main.cc
    build_units all
    for i in $(seq 20); do
        chosen=()
        for k in $(seq $((units / 2))); do chosen+=("./unit$(((i + k) % units + 1)).cc.o"); done
        g++ main.cc.o "${chosen[@]}" -o "program$i"
    done
}
if [ -d "$units" ]; then ln -s "$(realpath "$units")"/program* .; else build_twenty; fi
python3 - "$count" << 'END_PY'
import os, random, re, subprocess, sys
random.seed(1)
with open('table.csv', 'w', encoding='ascii') as table:
    for i in range(1, 21):
        path = os.path.realpath(f'program{i}')
        shown = subprocess.run(['readelf', '-SW', path], check=True, capture_output=True, text=True).stdout
        begin, size = (int(n, 16) for n in re.search(r'\] \.text +PROGBITS +(\w+) \w+ (\w+)', shown).groups())
        for address in random.sample(range(begin, begin + size), min(size, int(sys.argv[1]))):
            table.write(f'{path},{address:x},{random.randrange(1, 100)}\n')
END_PY
sizes=$(stat -Lc %s program1 program2 program20 | awk '{ sum += $1 } END { printf "%.0f", sum / NR / 1000000 }')
echo "twenty programs of about $sizes MB, $(wc -l < table.csv) rows"
cat > jobs.py << 'END_PY'
"""jobs.py FOLDER: runs the job with 1, 2 and 4 workers, each three times, and prints the fastest of each."""
import glob
import os
import resource
import signal
import sys
import threading
import time
sys.path.insert(0, sys.argv[1])
import symbolize
from distributed import Client

def most():
    return resource.getrusage(resource.RUSAGE_SELF).ru_maxrss

def kill_one(client, out, killed):
    """Kills a worker by its own number when five parts are there."""
    pid = sorted(client.run(os.getpid).values())[0]
    while len(glob.glob(out + '/0*.jsonl')) < 5:
        time.sleep(0.01)
    os.kill(pid, signal.SIGKILL)
    killed.append(len(glob.glob(out + '/0*.jsonl')))

def with_one_killed():
    with symbolize.local(2) as cluster, Client(cluster) as client:
        client.wait_for_workers(2)
        killed, begun = [], time.perf_counter()
        thread = threading.Thread(target=kill_one, args=(client, 'rows.2.killed', killed))
        thread.start()
        summary = symbolize.run(client, ['table.csv'], 'rows.2.killed', [])
        thread.join()
        assert killed[0] < summary.parts, 'too late'
        print(f'2 workers, one killed when {killed[0]} parts were there: {time.perf_counter() - begun:.2f} s, '
              f'{summary.rows} rows, {summary.failed} parts failed', flush=True)

if __name__ == '__main__':
    for workers in (1, 2, 4):
        with symbolize.local(workers) as cluster, Client(cluster) as client:
            client.wait_for_workers(workers)
            found = []
            for n in range(3):
                begun = time.perf_counter()
                summary = symbolize.run(client, ['table.csv'], f'rows.{workers}.{n}', [])
                found.append((time.perf_counter() - begun, summary))
            seconds, summary = min(found, key=lambda pair: pair[0])
            memory = max(client.run(most).values()) // 1000
            print(f'{workers} workers: {seconds:.2f} s, {summary.reading:.2f} s of it reading the table, '
                  f'{summary.cutting:.2f} s cutting, {summary.answering:.2f} s answering {summary.parts} parts; asking '
                  f'{summary.asking:.2f} s, so {100 * summary.share:.0f} in 100 of the workers\' time is not; '
                  f'a worker has {memory} MB at most', flush=True)
    with_one_killed()
END_PY
PYTHONWARNINGS=ignore /usr/bin/python3 jobs.py "$here/examples/dask" 2> jobs.log || { tail jobs.log; exit 1; }
for folder in rows.*; do LC_ALL=C sort "$folder"/*.jsonl | md5sum; done | sort -u | wc -l | grep -qx 1 ||
    { echo "other rows"; exit 1; }
echo "all runs have the same $(cat rows.1.0/*.jsonl | wc -l) rows"
if has "examples/parallel.sh" parallel; then
    for jobs in 1 2 4; do
        begin=$(date +%s.%N)
        A2L=$a2l "$here/examples/parallel.sh" table.csv parallel.$jobs -j $jobs
        awk -v b="$begin" -v e="$(date +%s.%N)" -v j="$jobs" 'BEGIN { printf "parallel.sh -j %d: %.2f s\n", j, e - b }'
    done
    for jobs in 1 2 4; do md5sum < parallel.$jobs/rows; done | sort -u | wc -l | grep -qx 1 ||
        { echo "parallel.sh: other rows"; exit 1; }
    [ "$(wc -l < parallel.1/rows)" = "$(cat rows.1.0/*.jsonl | wc -l)" ] ||
        { echo "parallel.sh: more or fewer rows"; exit 1; }
fi
