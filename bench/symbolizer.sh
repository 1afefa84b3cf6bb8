#!/usr/bin/env bash
# How long a2l-symbolizer takes in a conversation, and how much memory, beside llvm-symbolizer and GNU
# addr2line, all in one run: from its start to the first answer, 2,000 random addresses one by one, the
# processor time of all, and the memory that is its own in the end. The words are programs or relocatable
# files, or how many units of templates are to be built into one (36 and 60 without, about 60 and 100 MB),
# or `joined`: a relocatable file of some 10 MB, of two such units in a static library, or `split`: one such
# unit in a .dwo file, of which 1,000 addresses are asked. Each is run nine times, in turn, and once where it
# takes more than 10 seconds; the medians count. Then the median of 21 reports of AddressSanitizer with
# either, of a program by clang 19. It prints ratios, and tests nothing.
. "$(dirname "$0")/../tests/programs.sh"
need_symbolizer
[ $# -gt 0 ] || set -- 36 60
clients=$here/tests/clients
export PYTHONPATH=$clients

cat > conversing.py << 'END_PY'
"""conversing.py PROGRAM NAME=COMMAND..: what each tool takes; a tool that speaks GNU's style has a name with addr2line."""
import os
import random
import re
import shlex
import statistics
import subprocess
import sys
import time
from conversation import Conversation

TIMES = 9
COUNT = int(os.environ['COUNT'])

def of_code(program):
    shown = subprocess.run(['readelf', '-SW', program], check=True, capture_output=True, text=True).stdout
    begin, size = (int(n, 16) for n in re.search(r'\] \.text +PROGBITS +(\w+) \w+ (\w+)', shown).groups())
    draw = random.Random(1)
    return [begin + draw.randrange(size) for _ in range(COUNT + 1)]

def own_memory(pid):
    """Pages that are this process's alone, in kB: neither the file's nor a library's."""
    with open(f'/proc/{pid}/smaps_rollup', encoding='ascii') as file:
        return int(re.search(r'Anonymous: +(\d+)', file.read())[1])

def processor_time(pid):
    """Seconds of processors, with those of the system."""
    with open(f'/proc/{pid}/stat', encoding='ascii') as file:
        return sum(map(int, file.read().rsplit(')', 1)[1].split()[11:13])) / os.sysconf('SC_CLK_TCK')

def converse(command, program, addresses, is_gnu):
    """Seconds to the first answer, for all others, and of processors; kilobytes; how many have a line."""
    words = shlex.split(command) + (['-e', program] if is_gnu else [])
    request = b'%#x' if is_gnu else b'CODE "%s" %%#x' % program.encode()
    begun = time.perf_counter()
    with Conversation(words, sentinel=b',' if is_gnu else None) as talk:
        talk.ask(request % addresses[0])
        first = time.perf_counter()
        replies = [talk.ask(request % address) for address in addresses[1:]]
        end = time.perf_counter()
        memory, spent = own_memory(talk.tool.pid), processor_time(talk.tool.pid)
    lines = sum(bool(re.search(rb':[1-9]\d*(:\d+)?( \(disc.*)?\n', reply)) for reply in replies)
    return first - begun, end - first, spent, memory, lines

program, tools = sys.argv[1], dict(word.split('=', 1) for word in sys.argv[2:])
addresses = of_code(program)
runs = {name: [] for name in tools}
for _ in range(TIMES):
    for name, command in tools.items():
        if not runs[name] or runs[name][0][1] < 10:
            runs[name].append(converse(command, program, addresses, 'addr2line' in name))
medians = {name: [statistics.median(column) for column in zip(*runs[name])] for name in tools}
ours = medians['a2l-symbolizer']
for name, (first, others, spent, memory, lines) in medians.items():
    ratios = ' '.join(f'{mine / theirs:.2f}' for mine, theirs in zip(ours, (first, others, spent, memory)))
    print(f'{name:18} first {first * 1000:6.1f} ms, {COUNT} others {others:6.3f} s, {spent:5.2f} s of processors, '
          f'{memory / 1000:6.1f} MB, {int(lines)} lines; a2l-symbolizer takes {ratios} of these')
END_PY

# What a tool is called in the table, and its command.
tools=("a2l-symbolizer=$symbolizer --as=llvm-symbolizer --demangle --inlines")
for peer in llvm-symbolizer-19 llvm-symbolizer; do
    if command -v "$peer" > found; then tools+=("$peer=$(cat found) --demangle --inlines"); break; fi
done
if has "GNU addr2line" addr2line; then
    tools+=("a2l as addr2line=$symbolizer --as=addr2line -f -i" "addr2line=$(command -v addr2line) -f -i")
fi
for word in "$@"; do
    asked=("${tools[@]}") count=2000
    if [ "$word" = split ]; then
        # GNU's addr2line doesn't read them
        asked=("${tools[@]:0:2}") count=1000
        write_large 1
        g++ -std=c++17 -g -gdwarf-5 -O1 -gsplit-dwarf unit1.cc main.cc -o large
        program=$work/large
    elif [ "$word" = joined ]; then
        # GNU's addr2line takes a line without a number for address 0, which is code there: no reply has an end
        asked=("${tools[@]:0:2}")
        write_large 2
        g++ -std=c++17 -g -gdwarf-5 -O1 -c unit1.cc unit2.cc
        ar rcs joined.a unit1.o unit2.o
        ld -r --whole-archive joined.a -o large
        program=$work/large
    else
        need_large "$word"
    fi
    echo "a program of $(($(stat -Lc %s "$program") / 1000000)) MB, at a load of $(cut -d ' ' -f 1 /proc/loadavg)"
    COUNT=$count python3 conversing.py "$program" "${asked[@]}"
    rm -f large unit*.cc* main.cc* objects ./*.dwo
done

# A report of AddressSanitizer, in milliseconds: the median of 21 of each symbolizer, in turn.
if has "a report of AddressSanitizer" clang++-19 llvm-symbolizer-19; then
    clang++-19 -g -O1 -std=c++17 -pthread -fsanitize=address -shared -fPIC "$clients/library.cc" -o library.so
    clang++-19 -g -O1 -std=c++17 -pthread -fsanitize=address "$clients/faults.cc" ./library.so -o faults
    ln -s "$symbolizer" llvm-symbolizer-a2l
    for _ in $(seq 21); do
        for tool in "$work/llvm-symbolizer-a2l" "$(command -v llvm-symbolizer-19)"; do
            begun=$EPOCHREALTIME
            ASAN_SYMBOLIZER_PATH=$tool ./faults heap 2> report || true
            awk -v begun="$begun" -v end="$EPOCHREALTIME" -v tool="$(basename "$tool")" 'BEGIN { print tool, 1000 * (end - begun) }'
        done
        grep -q 'faults\.cc:' report || { echo "no report"; exit 1; }
    done | sort -k 1,1 -k 2,2n | awk '{ times[$1, ++count[$1]] = $2 }
        END { for (tool in count) printf "a report with %s: %.0f ms\n", tool, times[tool, int((count[tool] + 1) / 2)] }'
fi
