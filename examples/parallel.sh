#!/usr/bin/env bash
# Answers a table of addresses of many programs by GNU parallel: parallel.sh TABLE FOLDER [WORDS OF PARALLEL..]
#
# The table has lines `program,address,count`; paths have no comma and no tab in them. FOLDER/rows then has a line for
# each different address, with tabs between its fields: program, address, the sum of its counts, and function and
# location of each frame, innermost first. Each block of addresses of a program that is refused is one line: program,
# how many they are, the sum of their counts, and what a2l said. FOLDER/bad has the lines that can't be read.
#
# Further words go to parallel: `-j 8`, or `--sshlogin one,two,:` for other machines, which need rsync, a2l and the
# programs under the same paths; blocks and answers are sent. The variable A2L names a2l, BLOCK says how many addresses
# it gets at once (20,000). What failed is tried again twice. FOLDER/log is parallel's log. The status is parallel's, or
# 1 where answers of a block are missing all the same; then a line on standard error says which.
set -euo pipefail
[ $# -ge 2 ] || { sed -n '2s/^# //p' "$0" >&2; exit 2; }
table=$1 folder=$2
shift 2
export LC_ALL=C
mkdir -p "$folder/blocks"
[ -z "$(ls "$folder/blocks")" ] || { echo "$folder/blocks is not empty" >&2; exit 2; }

# Lines with a tab between their fields and with addresses of 16 digits, so that the order of texts is that of numbers;
# equal addresses next to each other, which are added up. A block has addresses of one program.
awk -F, -v OFS='\t' -v bad="$folder/bad" '
    { sub(/\r$/, "") }
    NR == 1 && $0 == "program,address,count" { next }
    NF != 3 || $2 !~ /^(0x)?[0-9A-Fa-f]+$/ || length($2) > ($2 ~ /^0x/ ? 18 : 16) || $3 !~ /^[0-9]+$/ {
        print > bad
        next
    }
    { sub(/^0x/, "", $2); print $1, substr("000000000000000", 1, 16 - length($2)) tolower($2), $3 }' "$table" |
    sort -t "$(printf '\t')" -k 1,1 -k 2,2 |
    awk -F '\t' -v OFS='\t' -v most="${BLOCK:-20000}" -v folder="$folder" -v name_of="a2l-$(uname -n)-$$-%06d" '
        function finish() { if (name != "") print address, sprintf("%.0f", count) > (block ".counts") }
        function next_block() {
            if (block != "") { close(block); close(block ".counts") }
            file = sprintf(name_of, ++blocks); block = folder "/blocks/" file; written = 0
            print file, name > (folder "/list")
        }
        # as texts: 1e2 and 100 are one number
        $1 "" == name && $2 "" == address { count += $3; next }
        { finish() }
        $1 "" != name || written == most { name = $1 ""; next_block() }
        { address = $2 ""; count = $3; written++; print address > block }
        END { finish() }'

# a2l ends with 1 where a unit of an address cannot be read, with 2 where the program is refused: both are answers.
status=0 sent=()
case " $* " in
# no folder is made on another machine: when one job's files are removed, so would be a folder that others share
*' --sshlogin'* | *' -S'* | *' --slf '*) sent=(--transferfile {1} --return {1}.out --return {1}.err --cleanup) ;;
esac
[ ! -s "$folder/list" ] || (cd "$folder/blocks" && parallel --colsep '\t' --joblog ../log --retries 3 "${sent[@]}" "$@" \
    "${A2L:-a2l}"' -e {2} -a -f -i --workers 1 < {1} > {1}.out 2> {1}.err || [ $? -le 2 ]' :::: ../list) || status=$?

# An answer begins with the address that is next.
while IFS=$'\t' read -r block program; do
    block=$folder/blocks/$block
    [ -f "$block.out" ] && [ -f "$block.err" ] || {
        echo "$block: no answers for $program" >&2
        [ "$status" != 0 ] || status=1
        continue
    }
    awk -F '\t' -v OFS='\t' -v program="$program" -v out="$block.out" '
        FILENAME ~ /\.err$/ { refused = refused $0; next }
        { address[++n] = $1; count[n] = $2; sum += $2 }
        END {
            if (refused != "") { sub(/^a2l: /, "", refused); print program, n, sprintf("%.0f", sum), refused; exit }
            for (i = 0; (getline line < out) > 0;) {
                if (i < n && line == "0x" address[i + 1]) row[++i] = program OFS line OFS count[i]
                else row[i] = row[i] OFS line
            }
            if (i < n) { print out ": answers are missing" > "/dev/stderr"; exit 1 }
            for (i = 1; i <= n; i++) print row[i]
        }' "$block.err" "$block.counts"
done < "$folder/list" > "$folder/rows"
exit "$status"
