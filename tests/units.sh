#!/usr/bin/env bash
# Compares `a2l --units` with readelf on programs of this machine's compilers: the same units, with the
# same offsets, versions and kinds. Run it after `rt run` in crates/a2l has built the program. Its last
# line counts the programs that agree; it fails where one differs.
. "$(dirname "$0")/programs.sh"
need_a2l
write_sources

# what readelf shows, as --units writes it
units() {
    readelf --wide --debug-dump=no-follow-links --debug-dump=info "$1" 2>/dev/null | awk '
        function flush() {
            if (version == "") return
            kind = "skipped"
            if (version == 5 && type ~ /^DW_UT_(compile|partial|skeleton)$/) kind = substr(type, 7)
            print offset " version " version " " kind
            version = ""
        }
        /^Contents of the / { flush(); of_info = $4 == ".debug_info" }
        of_info && /Compilation Unit @ offset/ { flush(); offset = $NF; sub(/:$/, "", offset); if (offset == "0") offset = "0x0"; type = "" }
        of_info && /^   Version:/ { version = $2 }
        /^   Unit Type:/ { type = $3 }
        END { flush() }'
}

agreed=0
agree() {
    units "$1" > wanted
    "$a2l" -e "$1" --units > got
    if ! diff wanted got > difference; then
        echo "$1 differs:"
        head -20 difference
        exit 1
    fi
    agreed=$((agreed + 1))
    echo "$1: $(wc -l < got) units"
}

for cc in gcc clang; do
    for version in 4 5; do
        for level in 0 2; do
            "$cc" -g -gdwarf-$version -O$level calls.c other.c -o $cc-$version-O$level
            agree $cc-$version-O$level
        done
    done
    "$cc" -g -gdwarf-5 -c calls.c -o calls5.o
    "$cc" -g -gdwarf-4 -c other.c -o other4.o
    "$cc" calls5.o other4.o -o $cc-mixed
    agree $cc-mixed
    "$cc" -g -gdwarf-5 -gsplit-dwarf calls.c other.c -o $cc-split
    agree $cc-split
    "$cc" -g -gdwarf-5 -static calls.c other.c -o $cc-static
    agree $cc-static
    "$cc" -g -gdwarf-5 -shared -fPIC other.c -o $cc-shared.so
    agree $cc-shared.so
done
for version in 4 5; do
    g++ -g -gdwarf-$version -O2 -fdebug-types-section sizes.cc -o g++-types-$version
    agree g++-types-$version
    rustc -g -C dwarf-version=$version words.rs -o rustc-$version
    agree rustc-$version
done
g++ -g -gdwarf-5 -ffunction-sections -O2 sizes.cc -o g++-sections
agree g++-sections

strip gcc-5-O2 -o stripped
"$a2l" -e stripped --units > got
[ ! -s got ] || { echo "a stripped program lists units"; exit 1; }
if "$a2l" -e calls5.o --units > got 2> told; then
    echo "a relocatable object is accepted"
    exit 1
fi
[ "$(cat told)" = "a2l: file refused: 3 Relocatable" ] || { cat told; exit 1; }
echo "$agreed programs agree with readelf"
