#!/usr/bin/env python3
"""Answers tables of addresses of many programs, by Dask.

    symbolize.py --out FOLDER [--workers N | --scheduler ADDRESS] [--build-ids FOLDER].. [--seconds S] [--limit S]
                 TABLE..

A table has lines `program,address,count`: a path or a build id, an address of the file in hexadecimal digits, and how
often it was seen. Equal addresses are added up. FOLDER then has files of JSON lines, a row for each address:

    {"program": "/bin/x", "address": "0x401004", "count": 3, "frames": [{"function": "leaf", "path": "/w/a.c", ..}, ..]}

Frames are innermost first, and none are there where no unit covers the address; `fault` says why its unit can't be
read. Addresses that aren't answered are one row, with how many they are and the sum of their counts: `refused` says why
their program can't be answered (it is missing, say), `failed` why no worker could tell (out of memory, or it died again
and again). So the counts of all rows are those of the tables. A line of a table that can't be read is a row with `bad`.
`summary.json` is written last.

Without --scheduler it starts N workers (4) of one thread each on this machine. Workers elsewhere are started with
the module a2l and this folder in PYTHONPATH, and see programs and FOLDER under the same paths. A bar shows how far it
is, and so does Dask's dashboard, which wants the package bokeh. A part that takes longer than --limit ends its worker,
and is `failed` when it has ended several. The status is 1 if something has failed.
"""

from __future__ import annotations

import argparse
import json
import os
import shutil
import sys
import time
from dataclasses import asdict, dataclass
from typing import Dict, List, Optional

HERE = os.path.dirname(os.path.abspath(__file__))
# Of the repository; what is installed is in PYTHONPATH anyway.
MODULE = os.path.join(HERE, os.pardir, os.pardir, 'python')
sys.path[:0] = [HERE, MODULE]

import asked  # noqa: E402
import parts  # noqa: E402
from distributed import Client, LocalCluster, as_completed, progress  # noqa: E402


@dataclass
class Summary:
    """What a job has done: its parts, those whose program was refused, and its seconds.

    `asking` is the sum of the seconds for which workers asked the module a2l, and `share` is the part of the workers'
    time in which they did something else, or nothing.
    """

    programs: int = 0
    parts: int = 0
    rows: int = 0
    refused: int = 0
    failed: int = 0
    bad: int = 0
    workers: int = 0
    reading: float = 0.0
    cutting: float = 0.0
    answering: float = 0.0
    asking: float = 0.0
    share: float = 0.0


def check_workers(client: Client) -> None:
    """Ends the job if a worker lacks a module, since each of its parts would fail."""
    told = client.run(exec, 'import a2l, asked, parts', on_error='return')
    lacking = {worker: why for worker, why in told.items() if why is not None}
    for worker, why in list(lacking.items())[:1]:
        raise SystemExit(f'{len(lacking)} of {len(told)} workers can\'t work, as {worker}: {why}. Start each with the '
                         'module a2l and the folder of this program in PYTHONPATH')


def wanted_parts(programs: Dict[str, asked.Asked], folders: List[str], out: str,
                 limit: Optional[float]) -> List[parts.Part]:
    """Each program as one part, whose addresses are in a file."""
    found = []
    for number, (program, addresses) in enumerate(sorted(programs.items())):
        path = os.path.join(out, 'asked', f'{number:06}')
        addresses.write(path)
        place = asked.path_of(program, folders)
        found.append(parts.Part(program, place, path, 0, len(addresses.addresses), out, number, limit))
    return found


def cut_parts(client: Client, whole: List[parts.Part], seconds: float) -> List[parts.Part]:
    """Cuts what would take too long, on the workers. A program that no worker can cut stays whole."""
    cutting, done = {}, []
    for part in whole:
        size = os.path.getsize(part.path) if os.path.isfile(part.path) else 0
        wanted = parts.parts_wanted(part.end, size, seconds)
        if wanted == 1:
            done.append(part)
        else:
            cutting[client.submit(parts.cut, part, wanted, key=f'cut-{part.number}', retries=2)] = part
    for future, part in cutting.items():
        done.extend([part] if future.exception() is not None else future.result())
    return done


def answer_parts(client: Client, whole: List[parts.Part], summary: Summary, bar: bool) -> None:
    """Answers all parts, each once, however often it is run.

    Dask gives a part up when the workers that had it have died more than three times, also where another part was the
    reason. So what has failed is tried again by itself when all else is done. What fails then too is a row.
    """
    futures = {client.submit(parts.answer, part, key=_key(part), retries=2): part for part in whole}
    if bar:
        progress(list(futures), notebook=False)
    again = []
    for future in as_completed(futures):
        if future.exception() is None:
            _add(summary, future.result())
        else:
            again.append(futures[future])
        future.release()
    for part in again:
        why = (alone := client.submit(parts.answer, part, key=_key(part) + '-alone')).exception()
        if why is None:
            _add(summary, alone.result())
        else:
            _write_failed(part, why)
            summary.failed += 1


def _key(part: parts.Part) -> str:
    """The name that a part has on Dask's dashboard."""
    return f'answer-{part.number}-{part.begin}'


def _add(summary: Summary, done: parts.Done) -> None:
    summary.rows += done.rows
    summary.refused += done.refused
    summary.asking += done.asking


def _write_failed(part: parts.Part, why: BaseException) -> None:
    _, counts = asked.read(part.asked, part.begin, part.end)
    rows = [parts.row_without_answers(part.program, 'failed', type(why).__name__, counts)]
    parts.write(os.path.join(part.out, part.name), rows)


def run(client: Client, tables: List[str], out: str, folders: List[str], pace: parts.Pace = parts.Pace(),
        bar: bool = False) -> Summary:
    """Does the whole job. The folder has to be new, or empty."""
    check_workers(client)
    os.makedirs(out, exist_ok=True)
    if os.listdir(out):
        raise SystemExit(f'{out} is not empty')
    out = os.path.abspath(out)
    for folder in ('asked', 'unfinished'):
        os.mkdir(os.path.join(out, folder))
    summary, begun = Summary(workers=len(client.scheduler_info()['workers'])), time.perf_counter()
    programs, bad = asked.read_tables(tables)
    if bad:
        parts.write(os.path.join(out, 'bad.jsonl'), bad)
    whole = wanted_parts(programs, folders, out, pace.limit)
    read = time.perf_counter()
    whole = cut_parts(client, whole, pace.seconds)
    cut = time.perf_counter()
    summary.programs, summary.parts, summary.bad = len(programs), len(whole), len(bad)
    answer_parts(client, whole, summary, bar)
    summary.reading, summary.cutting, summary.answering = read - begun, cut - read, time.perf_counter() - cut
    summary.share = 1 - summary.asking / (max(summary.workers, 1) * max(summary.answering, 1e-9))
    for folder in ('asked', 'unfinished'):
        shutil.rmtree(os.path.join(out, folder))
    with open(os.path.join(out, 'summary.json'), 'w', encoding='ascii') as file:
        json.dump(asdict(summary), file)
    return summary


def local(workers: int) -> LocalCluster:
    """Workers of this machine, which find the modules as this process does."""
    known = os.environ.get('PYTHONPATH')
    os.environ['PYTHONPATH'] = os.pathsep.join([HERE, MODULE] + ([known] if known else []))
    return LocalCluster(n_workers=workers, threads_per_worker=1)


def main(words: Optional[List[str]] = None) -> int:
    parser = argparse.ArgumentParser(description='Answers tables of addresses of many programs, by Dask.')
    parser.add_argument('--out', required=True, metavar='FOLDER', help='a new folder for the rows')
    parser.add_argument('--workers', type=int, default=4, metavar='N', help='how many workers of this machine')
    parser.add_argument('--scheduler', metavar='ADDRESS', help='a scheduler of Dask that is there')
    parser.add_argument('--build-ids', action='append', metavar='FOLDER', help='where build ids are looked for')
    parser.add_argument('--seconds', type=float, default=parts.Pace.seconds, metavar='S',
                        help='how long a part should take')
    parser.add_argument('--limit', type=float, metavar='S', help='how long a part may take')
    parser.add_argument('tables', nargs='+', metavar='TABLE')
    chosen = parser.parse_args(words)
    cluster = None if chosen.scheduler else local(chosen.workers)
    with Client(cluster or chosen.scheduler) as client:
        print(f'dashboard: {client.dashboard_link}')
        folders = chosen.build_ids or ['/usr/lib/debug/.build-id']
        summary = run(client, chosen.tables, chosen.out, folders, parts.Pace(chosen.seconds, chosen.limit), bar=True)
    if cluster is not None:
        cluster.close()
    print(json.dumps(asdict(summary)))
    return 1 if summary.failed else 0


if __name__ == '__main__':
    sys.exit(main())
