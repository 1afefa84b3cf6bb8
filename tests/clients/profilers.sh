# shellcheck shell=bash
# Sourced by tests/clients.sh: profiles of one program, by perf and by gperftools.

profilers() {
    client "perf" perf g++ -- perf_of_sorts
    client "pprof of Google" go g++ theirs/llvm-symbolizer -- pprof_of_google
    client "pprof of Google by addr2line" go g++ -- pprof_by_addr2line
    client "pprof of gperftools" google-pprof g++ -- pprof_of_gperftools
}

build_sorts() { [ -e sorts ] || g++ $five -std=c++17 -fno-omit-frame-pointer "$clients/sorts.cc" -o sorts; }

# Call chains are by frame pointers. perf's cache of files is a folder that isn't there. Frames of the
# C library are left out: GNU addr2line has other lines of functions that are inlined there.
perf_of_sorts() {
    build_sorts
    perf record -q -e cpu-clock -g -o perf.data ./sorts || { echo "skipped, it records nothing here: perf"; return 0; }
    local perf=(perf --buildid-dir "$work/none") of_sorts=(-i perf.data --stdio --dsos sorts)
    same 'sorts\.cc:[0-9]+' "${perf[@]}" report "${of_sorts[@]}" -g none --no-children -s sym,srcline &&
        same 'sorts\.cc:[0-9]+' "${perf[@]}" report "${of_sorts[@]}" -s srcline &&
        same 'sorts\.cc:[0-9]+' "${perf[@]}" annotate -i perf.data --stdio -l 'work::fold<double>' &&
        same 'sorts\.cc:[0-9]+' bash -c '"$@" script -i perf.data -F ip,sym,dso,srcline --inline |
            awk "/^\t/ { ours = /sorts\)/ } ours"' script "${perf[@]}"
}

# A profile by gperftools' library. Its status says that something is missing.
profile_sorts() {
    build_sorts
    [ ! -s sorts.prof ] || return 0
    local library
    library=$(ls /usr/lib/*/libprofiler.so.0) || { echo "skipped, google-perftools isn't here: pprof"; return 1; }
    LD_PRELOAD=$library CPUPROFILE=sorts.prof CPUPROFILE_FREQUENCY=1000 ./sorts
}

# Google's pprof, as Debian has its source.
build_pprof() {
    [ ! -e pprof ] || return 0
    [ -d /usr/share/gocode/src/github.com/google/pprof ] || {
        echo "skipped, golang-github-google-pprof-dev isn't here: pprof of Google"
        return 1
    }
    GO111MODULE=off GOPATH=/usr/share/gocode GOCACHE=$work/go go build -o pprof github.com/google/pprof
}

# Without the columns of samples, and without stubs of .plt, which peers take for `_init`, and
# a2l-symbolizer for nothing. Lines of as many samples are in the order of their names.
of_lines='-symbolize=force -lines -top sorts sorts.prof | sed -E "s/^( *[0-9.]+(ms|s|%)?){5} +//" |
    grep -vxE "_init|\[sorts\]"'

pprof_of_google() {
    profile_sorts && build_pprof || return 0
    same --any-order 'sorts\.cc:[0-9]+' bash -c "./pprof $of_lines" &&
        same 'sorts\.cc' ./pprof -symbolize=force -list 'work::.*fold' sorts sorts.prof
}

# It takes addr2line where it is shown no llvm-symbolizer.
pprof_by_addr2line() {
    profile_sorts && build_pprof || return 0
    same --any-order 'sorts\.cc:[0-9]+' bash -c './pprof -tools "addr2line:$(dirname "$(command -v addr2line)")" '"$of_lines"
}

# The one of gperftools takes its tools from its own folder, unless it is given all of them. Frames of
# the C library are left out here too; paths of its units are relative. So are the columns of samples
# and stubs of .plt, as above.
pprof_of_gperftools() {
    profile_sorts || return 0
    same --any-order --gnu 'sorts\.cc:[0-9]+' bash -c '
        for tool in addr2line nm objdump c++filt; do tools+=,$tool:$(command -v $tool); done
        google-pprof --tools="${tools#,}" --lines --text ./sorts sorts.prof | grep -v " \./" |
            sed -E "s/^( *[0-9.]+%?){5} +//" | grep -vx "_init ??:0"'
}
