# What depends on secrets, and what calls cost, as valgrind sees them. test.sh runs this, and packages.sh judge_secrets.
# judge_secrets NAME FOLDER-OF-LIBRARY
judge_secrets() {
    LD_LIBRARY_PATH=$2 python3 "$here/tests/judge_secrets.py" "$work/secrets_shared" > "$work/secrets.out" 2>&1
    check "$1: nothing depends on a secret that may not" 0 $?
    grep FAILED "$work/secrets.out"
    echo "$1: $(tail -1 "$work/secrets.out")"
}

test_secrets() {
    local objects
    objects=$(for source in $(listed library_sources); do echo "$OUT/$(basename "$source" .c).o"; done)
    cc -std=c11 -O0 -g -I"$here/include" "$here/tests/secrets.c" -L"$OUT" -l:libsnmpsec.so.0 \
        -o "$work/secrets_shared" &&
        cc -std=c11 -O0 -g -I"$here/include" "$here/tests/secrets.c" -Wl,--whole-archive "$archive" \
            -Wl,--no-whole-archive $objects -o "$work/secrets" &&
        cc -std=c11 -O1 -I"$here/include" "$here/tests/work.c" -Wl,--whole-archive "$archive" -Wl,--no-whole-archive \
            $objects -o "$work/work"
    check "the programs for valgrind are built" 0 $?
    python3 "$here/tests/judge_secrets.py" "$work/secrets" > "$work/secrets.out" 2>&1
    check "the archive: nothing depends on a secret that may not" 0 $?
    grep FAILED "$work/secrets.out"
    echo "the archive: $(tail -1 "$work/secrets.out")"
    judge_secrets "the shared library" "$OUT"
    python3 "$here/tests/work.py" "$work/work" > "$work/work.out" 2>&1
    check "calls cost what the header says" 0 $?
    grep FAILED "$work/work.out"
}

can_judge() {
    command -v python3 > /dev/null && command -v valgrind > /dev/null && echo '#include <valgrind/memcheck.h>' \
        | cc -fsyntax-only -x c - 2> /dev/null
}

if can_judge; then
    test_secrets
else
    echo "skipped: what depends on secrets, and what calls cost: there is no valgrind with its headers, or no python3 (apt-get install valgrind)"
fi
