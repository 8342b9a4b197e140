# The library on other processors, which qemu plays: those that it is compiled for, and older ones, where it says what
# it lacks. test.sh runs this.
lacking() { # PROCESSOR EXPECTED
    local told status
    told=$(qemu-x86_64 -cpu "$1" "$OUT/agent" --version 2>&1)
    status=$?
    check "on $1" \
        "127 libsnmpsec: the processor lacks $2: libsnmpsec needs an x86-64-v2 processor (since some 2009), or a virtual machine that shows one" "$status $told"
}

test_processors() {
    local name
    if [ "$(uname -m)" != x86_64 ]; then return; fi
    if ! command -v qemu-x86_64 > /dev/null; then
        echo "skipped: other processors: there is no qemu-x86_64 (apt-get install qemu-user)"
        return
    fi
    lacking core2duo "SSE4.1, SSE4.2, POPCNT"
    lacking qemu64,-sse3 "SSE3, SSSE3, SSE4.1, SSE4.2, POPCNT"
    for name in keys calls exchange; do
        qemu-x86_64 -cpu Nehalem "$OUT/$name" "$replay/config.toml" "$replay/captured.log" "$replay/printed.txt" \
            > "$work/qemu.out" 2>&1
        check "$name on the first x86-64-v2" 0 $?
    done
}

test_processors
