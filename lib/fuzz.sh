#!/bin/bash
# Fuzzes the library by coverage, with AFL++: fuzz.sh SECONDS [FOLDER]
#
# It wants `afl++` (Debian's package) and a C compiler. tools/instrumented compiles the proved module again, with
# counters of its branches, since Debian's AFL++ has no QEMU mode for the archive as it is. tests/fuzz.c signs and seals
# what it is given, so the fuzzer goes behind a right code too. It begins with tests/corpus.tar.gz and the inputs of
# tests/seeds.py. What it finds is in FOLDER (lib/out/fuzz/found), and a next run goes on from there. The status is 1 if
# an input crashes the library, or hangs it; those are kept there. With KEEP=1 the smallest set of inputs that reach as
# much becomes tests/corpus.tar.gz.
here=$(cd "$(dirname "$0")" && pwd)
out=${OUT:-$here/out}/fuzz
runtime=/usr/lib/afl
[ -n "$1" ] || { sed -n '2,3p' "$0"; exit 2; }
mkdir -p "$out/seeds"
found=${2:-$out/found}
command -v afl-fuzz > /dev/null || { echo "skipped: there is no afl-fuzz (apt-get install afl++)"; exit 0; }

listed() { sed -n "s/^set($1 \(.*\))\$/\1/p" "$here/CMakeLists.txt"; }

build() {
    local source parts=()
    [ "$out/snmp_c.o" -nt "$here/../crates/snmp_c/out/libsnmp_c.bc" ] \
        || (cd "$here/.." && tools/instrumented "$out/snmp_c.o") || return
    for source in $(listed library_sources) tests/fuzz.c; do
        parts+=("$out/$(basename "$source" .c).o")
        cc -std=c11 -O2 -DBY_FUZZER -I"$here/include" -c "$here/$source" -o "${parts[-1]}" || return
    done
    cc "${parts[@]}" "$out/snmp_c.o" "$runtime/libAFLDriver.a" "$runtime/afl-compiler-rt.o" -lm -o "$out/fuzz"
}

export AFL_SKIP_CPUFREQ=1 AFL_I_DONT_CARE_ABOUT_MISSING_CRASHES=1 AFL_NO_AFFINITY=1 AFL_NO_UI=1 AFL_AUTORESUME=1
build > "$out/build.log" 2>&1 || { tail -3 "$out/build.log"; exit 1; }
python3 "$here/tests/seeds.py" "$out/seeds"
tar xzf "$here/tests/corpus.tar.gz" -C "$out/seeds" || exit 1
afl-fuzz -i "$out/seeds" -o "$found" -V "$1" -G 8192 "$out/fuzz" > "$out/fuzz.log" 2>&1 || {
    tail -5 "$out/fuzz.log"
    exit 1
}
grep -E '^(execs_done|execs_per_sec|corpus_count|bitmap_cvg|saved_crashes|saved_hangs|edges_found|total_edges) ' \
    "$found/default/fuzzer_stats"
if [ -n "$KEEP" ]; then
    rm -rf "$out/smallest"
    afl-cmin -i "$found/default/queue" -o "$out/smallest" -- "$out/fuzz" > "$out/cmin.log" 2>&1 || {
        tail -3 "$out/cmin.log"
        exit 1
    }
    (cd "$out/smallest" && for file in *; do mv "$file" "$(sha256sum "$file" | cut -c1-16)"; done)
    tar c -C "$out/smallest" --sort=name --mtime=@0 --owner=0 --group=0 --numeric-owner --mode=644 . \
        | gzip -n9 > "$here/tests/corpus.tar.gz"
fi
[ -z "$(find "$found/default/crashes" "$found/default/hangs" -name 'id:*' 2> /dev/null)" ]
