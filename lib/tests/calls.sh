# The programs of checks in C, each built with sanitizers too, and the header in C++. test.sh runs this.
test_c() {
    local name folder
    mkdir -p "$work/corpus"
    tar xzf "$here/tests/corpus.tar.gz" -C "$work/corpus"
    for folder in $(printf '%s\n' "$OUT" "$programs" | sort -u); do
        for name in calls manager_calls gate_calls forward_calls listener_calls gate_parts bindings keys exchange \
            many kept hostile; do
            "$folder/$name" "$replay/config.toml" "$replay/captured.log" "$replay/printed.txt" > "$work/$name.out" 2>&1
            check "$name" 0 $?
            grep -m 9 FAILED "$work/$name.out"
            echo "$name: $(tail -1 "$work/$name.out")"
        done
        "$folder/fuzz_inputs" "$work"/corpus/* > "$work/fuzz.out" 2>&1
        check "the fuzzer's inputs" 0 $?
        echo "fuzz: $(tail -1 "$work/fuzz.out")"
    done
    if command -v c++ > /dev/null; then
        check "the header in C++" "" "$(echo '#include "snmpsec.h"' | c++ -std=c++11 -Wall -Wextra -Werror \
            -fsyntax-only -I"$here/include" -x c++ - 2>&1)"
    else
        echo "skipped: no C++ compiler"
    fi
}

test_c
