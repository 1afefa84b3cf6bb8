#!/usr/bin/env bash
# How long python/a2l takes, and how much memory, beside a loop over the Rust crate addr2line and beside Python that
# asks llvm-symbolizer through a pipe, all in one run: 10,000 random addresses of a program, and a million samples of
# 20,000 of them. The program is built of as many units of templates as the first word says (60 without, about 100 MB),
# or it is the one that the word names. Each makes values of all frames, which Python has in the end, and says how many
# they are. Each is run as often as the second word says (3 without, llvm-symbolizer once on a million), and the least
# time of the whole process counts. Then python/a2l alone on 100, 1,000 and 100,000 random addresses. Run it after
# `make shared`. It prints a table, and tests nothing but that a2l and the crate have as many frames.
. "$(dirname "$0")/../tests/programs.sh"
times=${2:-3}
[ -x /usr/bin/time ] || { echo "no /usr/bin/time here, which measures memory"; exit 1; }
[ -f "$here/out/liba2l.so" ] || { echo "build the library first: make shared"; exit 1; }
need_large "${1:-60}"
export PYTHONPATH=$here/python

cat > asking.py << 'END_PY'
"""asking.py HOW PROGRAM: asks for the addresses on the input, and prints how many frames they have."""
import subprocess
import sys
import time

def module(path, addresses):
    import a2l
    begun = time.perf_counter()
    with a2l.open(path) as program:
        opened = time.perf_counter()
        answers = program.frames_of(addresses)
    told = time.perf_counter()
    print(f'open {opened - begun:.3f} s, frames_of {told - opened:.3f} s', file=sys.stderr)
    return sum(len(answer.frames) for answer in answers)

def pipe(path, addresses):
    """The frames as pairs of texts, from the lines of llvm-symbolizer; a blank line ends an answer."""
    words = ['llvm-symbolizer', '-e', path, '--functions=linkage', '--no-demangle']
    asked = ''.join(f'{address:#x}\n' for address in addresses)
    text = subprocess.run(words, input=asked, capture_output=True, text=True, check=True).stdout
    answers = []
    for block in text.split('\n\n'):
        lines = block.split('\n')
        answers.append([(name, place) for name, place in zip(lines[::2], lines[1::2]) if name != '??'])
    return sum(map(len, answers))

addresses = [int(line, 16) for line in sys.stdin]
print({'module': module, 'pipe': pipe}[sys.argv[1]](sys.argv[2], addresses))
END_PY

tools=(module)
needs='addr2line = { version = "*", default-features = false, features = ["std-object"] }
object = "*"'
if build_peer addr2line "$needs" << 'END_RS'
use std::io::BufRead;
// Each frame as a value with texts of its own, which is let go after its address.
fn main() -> Result<(), Box<dyn std::error::Error>> {
    let bytes = std::fs::read(std::env::args().nth(1).ok_or("no file")?)?;
    let file = object::File::parse(&*bytes)?;
    let context = addr2line::Context::new(&file)?;
    let mut count = 0;
    for line in std::io::stdin().lock().lines() {
        let a = u64::from_str_radix(line?.trim_start_matches("0x"), 16)?;
        let (mut frames, mut found) = (context.find_frames(a)?, Vec::new());
        while let Some(frame) = frames.next()? {
            let name = match &frame.function {
                Some(function) => Some(function.raw_name()?.into_owned()),
                None => None,
            };
            let place = frame.location.map(|at| (at.file.map(str::to_owned), at.line, at.column));
            found.push((name, place));
        }
        count += std::hint::black_box(found).len();
    }
    println!("{count}");
    Ok(())
}
END_RS
then
    tools+=(crate)
fi
if has "Python and llvm-symbolizer" llvm-symbolizer; then tools+=(pipe); fi

python3 - "$program" << 'END_PY'
import random, re, subprocess, sys
random.seed(1)
shown = subprocess.run(['readelf', '-SW', sys.argv[1]], check=True, capture_output=True, text=True).stdout
begin, size = (int(n, 16) for n in re.search(r'\] \.text +PROGBITS +(\w+) \w+ (\w+)', shown).groups())
# a profile: of 20,000 addresses each comes as often as one by its rank
hot = random.sample(range(begin, begin + size), min(size, 20000))
samples = random.choices(hot, [1 / (rank + 1) for rank in range(len(hot))], k=1000000)
drawn = [random.randrange(begin, begin + size) for _ in range(10000)]
many = [random.randrange(begin, begin + size) for _ in range(100000)]
tasks = {'random': drawn, 'samples': samples, 'few': drawn[:100], 'some': drawn[:1000], 'many': many}
for name, addresses in tasks.items():
    with open(name, 'w', encoding='ascii') as out:
        out.writelines(f'{a:#x}\n' for a in addresses)
print(f'{len(set(samples))} different addresses among the samples')
END_PY
command_of() {
    case $1 in
        crate) echo "addr2line/target/release/peer $program" ;;
        *) echo "python3 asking.py $1 $program" ;;
    esac
}
info=$((16#$(objdump -h "$program" | awk '$2 == ".debug_info" { print $3 }')))
size=$(($(stat -Lc %s "$program") / 1000000))
echo "a program of $size MB with $((info / 1000000)) MB of .debug_info; the least of $times times"
for task in random samples few some many; do
    # how it grows: 100, 1,000 and 100,000 random addresses
    case $task in random | samples) ;; *) tools=(module) ;; esac
    for tool in "${tools[@]}"; do
        for n in $(seq "$times"); do
            # shellcheck disable=SC2046
            timeout 900 /usr/bin/time -o measured -f '%e %U %S %M' $(command_of "$tool") < $task > "$task.$tool" \
                2> errors || { echo "$tool fails: $(tail -n 1 errors)" >&2; exit 1; }
            echo "$(cat measured) $(grep '^open' errors || true)"
            [ "$task.$tool" != samples.pipe ] || break
        done | sort -n > runs
        read -r seconds user system memory more < runs
        spent=$(awk -v u="$user" -v s="$system" 'BEGIN { print u + s }')
        printf '%-8s %-7s %8s s, %8s s of processors, %5d MB, %s frames %s\n' $task "$tool" "$seconds" "$spent" \
            $((memory / 1000)) "$(cat "$task.$tool")" "$more"
    done
    if [ -s $task.crate ]; then cmp $task.module $task.crate || echo "a2l and the crate have other frames"; fi
done
