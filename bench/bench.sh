#!/usr/bin/env bash
# How long a2l takes, and how much memory, beside GNU addr2line, llvm-symbolizer and the Rust crate addr2line, on
# a large C++ program of many units, all in one run. The program is built of as many units of templates as the first
# word says (60 without, about 100 MB), or of 530 units of very different sizes where it says `many`, which takes some
# minutes; or the first word is the path of one that is there.
# Each task is run by each tool in turn, as often as the second word says (3 without), and the least time counts; the tasks
# of a million addresses are run by a2l and the crate alone. The
# crate is built from Debian's packages (librust-addr2line-dev), and what is missing is said. Run it after `rt run` in
# crates/a2l has built a2l. It prints a table, and tests only that a2l's answers are the same at any order and number
# of workers.
. "$(dirname "$0")/../tests/programs.sh"
need_a2l
large=${1:-60}
times=${2:-3}
[ -x /usr/bin/time ] || { echo "no /usr/bin/time here, which measures memory"; exit 1; }
need_large "$large"

tools=(a2l)
if has "GNU addr2line" addr2line; then tools+=(gnu); fi
if has "llvm-symbolizer" llvm-symbolizer; then tools+=(llvm); fi
needs='addr2line = { version = "*", default-features = false, features = ["std-object"] }
object = "*"'
# the crate's own example, for raw names and without columns
if build_peer addr2line "$needs" << 'END_RS'
use std::io::{BufRead, BufWriter, Write};
fn main() -> Result<(), Box<dyn std::error::Error>> {
    let bytes = std::fs::read(std::env::args().nth(1).ok_or("no file")?)?;
    let file = object::File::parse(&*bytes)?;
    let context = addr2line::Context::new(&file)?;
    let mut out = BufWriter::new(std::io::stdout().lock());
    for line in std::io::stdin().lock().lines() {
        let a = u64::from_str_radix(line?.trim_start_matches("0x"), 16)?;
        writeln!(out, "0x{a:016x}")?;
        let (mut frames, mut count) = (context.find_frames(a)?, 0);
        while let Some(frame) = frames.next()? {
            count += 1;
            match &frame.function {
                Some(function) => writeln!(out, "{}", function.raw_name()?)?,
                None => writeln!(out, "??")?,
            }
            match frame.location {
                Some(at) => writeln!(out, "{}:{}", at.file.unwrap_or("??"), at.line.unwrap_or(0))?,
                None => writeln!(out, "??:0")?,
            }
        }
        if count == 0 {
            writeln!(out, "??\n??:0")?;
        }
    }
    Ok(())
}
END_RS
then
    tools+=(crate)
fi
command_of() {
    case $1 in
        a2l) echo "$a2l -e $program -a -f -i --workers 1" ;;
        a2l-4) echo "$a2l -e $program -a -f -i --workers 4" ;;
        gnu) echo "addr2line -e $program -a -f -i" ;;
        llvm) echo "llvm-symbolizer -e $program --output-style=GNU --addresses --functions=linkage --no-demangle" ;;
        crate) echo "addr2line/target/release/peer $program" ;;
    esac
}

# random addresses of the code, so that large functions are asked more often than small ones
python3 - "$program" <<'END_PY'
import random, re, subprocess, sys
random.seed(1)
shown = subprocess.run(['readelf', '--wide', '--section-headers', sys.argv[1]], check=True, capture_output=True, text=True).stdout
begin, size = (int(n, 16) for n in re.search(r'\] \.text +PROGBITS +(\w+) \w+ (\w+)', shown).groups())
asked = [random.randrange(begin, begin + size) for _ in range(10000)]
million = random.sample(range(begin, begin + size), min(size, 1000000))
# a profile: of 20,000 addresses each comes as often as one by its rank
hot = random.sample(range(begin, begin + size), min(size, 20000))
samples = random.choices(hot, [1 / (rank + 1) for rank in range(len(hot))], k=1000000)
for name, addresses in (('one', asked[:1]), ('sorted', sorted(asked)), ('random', asked), ('samples', samples), ('million', million)):
    with open(name, 'w') as out:
        out.writelines(f'{a:#x}\n' for a in addresses)
END_PY

declare -A least peak
measure() {
    local task=$1 tool=$2 n seconds memory
    for n in $(seq "$times"); do
        /usr/bin/time -o measured -f '%e %M' $(command_of "$tool") < "$task" > "$task.$tool" 2> errors || { echo "$tool fails:"; head -3 errors; exit 1; }
        read -r seconds memory < measured
        least[$task.$tool]=$(printf '%s\n%s\n' "${least[$task.$tool]:-$seconds}" "$seconds" | sort -n | head -1)
        peak[$task.$tool]=$memory
    done
}
megabytes() { awk -v k="$1" 'BEGIN { printf "%.0f", k / 1000 }'; }
info=$((16#$(objdump -h "$program" | awk '$2 == ".debug_info" { print $3 }')))
echo "a program of $(megabytes "$(($(stat -Lc %s "$program") / 1000))") MB with $((info / 1000000)) MB of .debug_info in $("$a2l" -e "$program" --units | wc -l) units; the least of $times times"
printf '%-34s %-6s %10s %8s %8s\n' task tool seconds ratio MB
for task in one sorted random samples million; do
    case $task in
        one) what='one address' ;;
        sorted) what='10,000 addresses in order' ;;
        random) what='10,000 addresses in random order' ;;
        samples) what='a million samples of 20,000' ;;
        million) what='a million addresses, random order' ;;
    esac
    all=("${tools[@]}" a2l-4)
    case $task in
        samples|million) all=(a2l a2l-4); [[ " ${tools[*]} " != *' crate '* ]] || all+=(crate) ;;
    esac
    for tool in "${all[@]}"; do
        measure $task "$tool"
        ratio=$(awk -v a="${least[$task.a2l]}" -v b="${least[$task.$tool]}" 'BEGIN { if (b > 0) printf "%.2f", a / b; else print "-" }')
        printf '%-34s %-6s %10s %8s %8s\n' "$what" "$tool" "${least[$task.$tool]}" "$ratio" "$(megabytes "${peak[$task.$tool]}")"
    done
    cmp "$task.a2l" "$task.a2l-4"
done
echo "ratio: a2l's time with 1 worker by the tool's; a2l-4: with 4 workers"
python3 - <<'END_PY'
import re
def blocks(path):
    return {block.split('\n')[0]: block for block in re.split(r'^(?=0x)', open(path, errors='replace').read(), flags=re.M) if block}
if blocks('sorted.a2l') != blocks('random.a2l'):
    raise SystemExit('a2l answers otherwise in another order')
END_PY
