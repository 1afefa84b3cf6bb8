#!/usr/bin/env bash
# The job for Dask, examples/dask, with two workers, and examples/parallel.sh, where the packages are here (Debian's
# python3-distributed, so it is run by /usr/bin/python3, and parallel). A table asks for addresses of programs of this
# machine's compilers, some of them many times, of one that isn't there, of one that is refused, of one by its build id,
# and it has lines that can't be read. The rows have to be what `a2l` writes for each address; the counts of all rows
# those of the table; and the addresses of a unit in one part. Then the job again, in which each part is run twice; in
# which a worker is killed when the first parts are there; in which two tasks kill each worker that takes them; and in
# which a part takes longer than it may. The rows, when sorted, have to be the same to the byte, but for the part that
# failed. A job with a worker that lacks a module ends at once. The large program is built of six
# units of templates, or it is the one that a word names. Run it after `rt run` in crates/a2l has built the program; the
# library is built here. The last line counts what agrees.
. "$(dirname "$0")/programs.sh"
need_a2l
need_library library shared
write_sources
build_levels
need_large "${1:-6}"
gcc -g -gdwarf-5 -O1 -Wl,--build-id calls.c other.c -o by-id
id=$(readelf -n by-id | sed -n 's/^ *Build ID: //p')
mkdir -p "ids/${id:0:2}"
mv by-id "ids/${id:0:2}/${id:2}.debug"
gcc -g -gdwarf-5 -c calls.c -o refused.o
# sixty units, each with fewer addresses than a part
for i in $(seq 60); do
    for k in $(seq 8); do
        echo "int f${i}_$k(int x) { int y = x; for (int i = 0; i < $k; i++) y += y * x + i; return y; }"
    done > "small$i.c"
done
echo 'int main(void) { return 0; }' > small.c
gcc -g -gdwarf-5 small*.c -o small
programs+=("$here/samples/inlined.elf" "$work/small" "$program")
mkdir table rows
export PYTHONPATH=$here/python PYTHONIOENCODING=utf-8:surrogateescape

python3 - "$id" "ids/${id:0:2}/${id:2}.debug" "${programs[@]}" << 'END_PY'
import os
import random
import re
import subprocess
import sys
draws = random.Random(1)

def addresses(path, count):
    shown = subprocess.run(['readelf', '-SW', path], check=True, capture_output=True, text=True).stdout
    found = re.search(r'\] \.text +PROGBITS +(\w+) \w+ (\w+)', shown)
    begin, size = (int(n, 16) for n in found.groups()) if found else (0x401000, 16)
    return [begin + draws.randrange(size) for _ in range(count)] + [0]

identity, place, *paths = sys.argv[1:]
rows = [(identity, a) for a in addresses(place, 50)]
for path in paths:
    count = 10000 if path in paths[-2:] else 100
    rows += [(os.path.abspath(path), a) for a in addresses(path, count)]
rows += [(os.path.abspath('refused.o'), a) for a in range(7)] + [('/nowhere', a) for a in range(5)]
rows += draws.choices(rows, k=3000)
draws.shuffle(rows)
with open('table/one', 'w') as one, open('table/two', 'w') as two:
    one.write('program,address,count\n')
    for i, (path, a) in enumerate(rows):
        address = draws.choice(['%x', '0x%x', '%X', '%016x']) % a
        print(path, address, draws.randrange(5), sep=',', file=two if i % 3 else one)
    two.write('/nowhere,12g,1\n/nowhere,1\n/nowhere,12345678123456781,1\n/nowhere,1,-1\n')
END_PY
# what the program writes for each program of the table, as rows of examples/parallel.sh
cat table/* > whole.csv
cat > wanted.py << 'END_PY'
"""wanted.py A2L BUILD-ID ITS-PATH: the rows of whole.csv, by the program, in order of program and address."""
import collections
import re
import subprocess
import sys
sums = collections.defaultdict(collections.Counter)
for line in open('whole.csv'):
    found = re.fullmatch('([^,]*),(?:0x)?([0-9A-Fa-f]{1,16}),([0-9]+)\n', line)
    if found:
        sums[found[1]][int(found[2], 16)] += int(found[3])
for program, counts in sums.items():
    path = sys.argv[3] if program == sys.argv[2] else program
    asked = ''.join(f'{address:x}\n' for address in sorted(counts))
    ran = subprocess.run([sys.argv[1], '-e', path, '-a', '-f', '-i'], input=asked, capture_output=True, text=True,
                         errors='surrogateescape', check=False)
    if ran.returncode > 1:
        print(program, len(counts), sum(counts.values()), ran.stderr[len('a2l: '):].strip(), sep='\t')
    for block in re.split('^(?=0x)', ran.stdout, flags=re.M)[1:]:
        head, *lines = block.rstrip('\n').split('\n')
        print(program, head, counts[int(head, 16)], *lines, sep='\t')
END_PY
cat > rows.py << 'END_PY'
"""rows.py FOLDER: the rows of the job in the same form, without those of lines that can't be read."""
import glob
import json
import sys

def lines(row):
    for frame in row['frames']:
        line = '?' if frame['line'] is None else frame['line']
        yield frame['function'] or '??'
        yield f'{frame["path"]}:{line}' if frame['path'] is not None else f'??:{frame["line"] or 0}'
    if 'fault' in row:
        yield f'!unit {row["fault"]["unit"]} fault {row["fault"]["number"]}'
    elif not row['frames']:
        yield from ('??', '??:0')

for path in glob.glob(sys.argv[1] + '/*.jsonl'):
    for row in map(json.loads, open(path)):
        if 'refused' in row:
            why = row['refused'] if row['refused'].startswith('file refused') else 'cannot read file'
            print(row['program'], row['addresses'], row['count'], why, sep='\t')
        elif 'frames' in row:
            print(row['program'], f'{int(row["address"], 16):#018x}', row['count'], *lines(row), sep='\t')
END_PY
python3 wanted.py "$a2l" "$id" "ids/${id:0:2}/${id:2}.debug" | LC_ALL=C sort > wanted

if has "examples/parallel.sh" parallel; then
    # it knows no build ids
    sed "s|^$id,|ids/${id:0:2}/${id:2}.debug,|" whole.csv > paths.csv
    sed -i "s|^ids|$work/ids|" paths.csv
    A2L=$a2l BLOCK=1000 "$here/examples/parallel.sh" paths.csv parallel -j 2 2> log || [ $? = 1 ] ||
        { cat log; exit 1; }
    sed "s|^$work/ids/[^	]*|$id|" parallel/rows | LC_ALL=C sort > found
    cmp found wanted || { echo "examples/parallel.sh: other rows"; exit 1; }
    [ "$(wc -l < parallel/bad)" = 4 ] || { echo "examples/parallel.sh: other bad lines"; exit 1; }
    if has "examples/parallel.sh with other machines" rsync; then
        # in place of ssh: a folder that is another machine's
        mkdir elsewhere
        cat > ssh << 'END_SSH'
#!/usr/bin/env bash
while [ "$1" != one ] && [ "$1" != two ]; do shift; done
echo "$1" >> "$(dirname "$0")/machines"
shift
[ "$1" != -- ] || shift
# as a server of ssh sets it
export HOME=$(dirname "$0")/elsewhere SHELL=/bin/bash
cd && exec bash -c "$*"
END_SSH
        chmod +x ssh
        A2L=$a2l BLOCK=1000 "$here/examples/parallel.sh" paths.csv remote --ssh "$work/ssh" --sshlogin one,two 2> log ||
            [ $? = 1 ] || { cat log; exit 1; }
        cmp parallel/rows remote/rows || { echo "examples/parallel.sh: other rows from other machines"; exit 1; }
        [ "$(sort -u machines | wc -l)" = 2 ] || { echo "examples/parallel.sh: a machine wasn't asked"; exit 1; }
    fi
fi

/usr/bin/python3 -c 'import distributed' 2> /dev/null ||
    { echo "skipped, no python3-distributed here: the job for Dask"; exit 0; }
cat > jobs.py << 'END_PY'
"""jobs.py SYMBOLIZE-FOLDER: runs the job in the five ways, and tells what each has done."""
import glob
import os
import signal
import sys
import threading
import time
sys.path.insert(0, sys.argv[1])
import symbolize
import parts
from distributed import Client

TABLES, FOLDERS, PACE = ['table/one', 'table/two'], ['nothing', os.path.abspath('ids')], parts.Pace(0.05)

def kill_one(client, out, killed):
    """Kills a worker, by its own number, when the first parts are there and others aren't."""
    pids = client.run(os.getpid)
    while len(glob.glob(out + '/0*.jsonl')) < 3:
        time.sleep(0.002)
    pid = sorted(pids.values())[0]
    os.kill(pid, signal.SIGKILL)
    killed.append((pid, len(glob.glob(out + '/0*.jsonl'))))

def killed(client):
    died = []
    thread = threading.Thread(target=kill_one, args=(client, 'rows/killed', died))
    thread.start()
    summary = symbolize.run(client, TABLES, 'rows/killed', FOLDERS, PACE)
    thread.join()
    (pid, count), = died
    assert count < summary.parts, 'the job had ended before a worker was killed'
    assert pid not in client.run(os.getpid).values()
    return summary, count

def twice(client):
    """Each part is run once more by hand, at the same time as the job does."""
    submit = client.submit
    def both(function, part, *words, **named):
        first = submit(function, part, *words, **named)
        if function is parts.answer:
            again.append(submit(function, part, key='again-' + named['key']))
        return first
    again = []
    client.submit = both
    summary = symbolize.run(client, TABLES, 'rows/twice', FOLDERS, PACE)
    client.submit = submit
    ran = sum(future.exception() is None for future in again)
    return summary, ran

def failing(client):
    """The part of one program kills each worker that takes it, and so does the cutting of another one."""
    submit = client.submit
    def submit_deadly(function, part, *words, **named):
        deadly = function is parts.answer and part.program == '/nowhere'
        if deadly or function is parts.cut and part.program.endswith('/small'):
            function = die
        return submit(function, part, *words, **named)
    client.submit = submit_deadly
    summary = symbolize.run(client, TABLES, 'rows/failing', FOLDERS, PACE)
    client.submit = submit
    return summary

def die(*_):
    os.kill(os.getpid(), signal.SIGKILL)

def late(client):
    """The part of one program takes longer than it may, wherever it is run."""
    submit = client.submit
    def submit_late(function, part, *words, **named):
        return submit(sleep if part.program == '/nowhere' else function, part, *words, **named)
    client.submit = submit_late
    summary = symbolize.run(client, TABLES, 'rows/late', FOLDERS, parts.Pace(PACE.seconds, 3))
    client.submit = submit
    return summary

def sleep(part):
    with parts.within(part.limit):
        time.sleep(60)

def hide():
    sys.modules['asked'] = None

def without_module(client):
    """A job with a worker that lacks a module ends at once, and tells which."""
    client.run(hide, workers=sorted(client.run(os.getpid))[:1])
    try:
        symbolize.run(client, TABLES, 'rows/without', FOLDERS, PACE)
    except SystemExit as why:
        assert '1 of 2 workers' in str(why) and 'asked' in str(why), why
    else:
        raise AssertionError('a worker without a module is asked')

if __name__ == '__main__':
    with symbolize.local(2) as cluster, Client(cluster) as client:
        whole = symbolize.run(client, TABLES, 'rows/whole', FOLDERS, PACE)
        assert (whole.refused, whole.failed, whole.bad, whole.workers) == (2, 0, 4, 2), whole
        assert whole.parts > whole.programs + 5, whole
        again, ran = twice(client)
        assert again.parts == whole.parts and ran > 0
        after, count = killed(client)
        assert (after.rows, after.parts, after.failed) == (whole.rows, whole.parts, 0), after
        last = failing(client)
        assert last.failed == 1 and last.parts < whole.parts, last
    # new ones: of workers that were killed many times, Dask starts some no more
    with symbolize.local(2) as cluster, Client(cluster) as client:
        limited = late(client)
        assert limited.failed == 1 and limited.parts == whole.parts, limited
    with symbolize.local(2) as cluster, Client(cluster) as client:
        without_module(client)
    print(f'{whole.parts} parts of {whole.programs} programs, a worker killed when {count} were there, {ran} run twice')
END_PY
export PYTHONWARNINGS=ignore
told=$(timeout 600 /usr/bin/python3 jobs.py "$here/examples/dask" 2> jobs.log) || { tail -n 40 jobs.log; exit 1; }
for way in whole twice killed failing late; do
    LC_ALL=C sort rows/$way/*.jsonl > sorted.$way
    [ -s rows/$way/summary.json ] && [ ! -e rows/$way/unfinished ] || { echo "$way: the job didn't end"; exit 1; }
done
python3 rows.py rows/whole | LC_ALL=C sort | cmp - wanted || { echo "other rows"; exit 1; }
cmp sorted.whole sorted.twice || { echo "parts that are run twice: other rows"; exit 1; }
cmp sorted.whole sorted.killed || { echo "a worker that is killed: other rows"; exit 1; }
grep -v '"/nowhere"' sorted.whole | cmp - <(grep -v '"/nowhere"' sorted.failing) ||
    { echo "a part that fails: other rows"; exit 1; }
grep -v '"/nowhere"' sorted.whole | cmp - <(grep -v '"/nowhere"' sorted.late) ||
    { echo "a part that takes too long: other rows"; exit 1; }
for way in failing late; do
    [ "$(grep -c '"failed": "KilledWorker", "addresses": 5' sorted.$way)" = 1 ] ||
        { echo "$way: a part has no row"; exit 1; }
done
[ "$(grep -c '"bad"' sorted.whole)" = 4 ] || { echo "other bad lines"; exit 1; }

# The counts of all rows are those of the table, and the addresses of a unit are in one part.
python3 - "$work/small" << 'END_PY' || exit 1
import collections
import glob
import json
import re
import sys
import a2l
wanted = sum(int(line.rsplit(',', 1)[1]) for line in open('whole.csv')
             if re.fullmatch('[^,]*,(0x)?[0-9A-Fa-f]{1,16},[0-9]+\n', line))
rows = [(path, row) for path in glob.glob('rows/whole/*.jsonl') for row in map(json.loads, open(path))]
found = sum(row.get('count', 0) for _, row in rows)
if found != wanted:
    sys.exit(f'counts of {found}, wanted are {wanted}')
small = [(path, int(row['address'], 16)) for path, row in rows if row.get('program') == sys.argv[1]]
with a2l.open(sys.argv[1]) as program:
    answers = program.locations_of([address for _, address in small])
of_unit = collections.defaultdict(set)
for (path, _), answer in zip(small, answers):
    if answer.unit is not None:
        of_unit[answer.unit].add(path)
parts = {path for path, _ in small}
split = [unit for unit, paths in of_unit.items() if len(paths) > 1]
if len(of_unit) < 60 or len(parts) < 5 or split:
    sys.exit(f'{len(split)} units of {len(of_unit)} are in two of {len(parts)} parts')
END_PY
echo "$(wc -l < wanted) rows are the program's; $told"
