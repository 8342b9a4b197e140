# Keys in memory: what is wiped, how deep the calls' stacks are, and handles in threads. test.sh runs this.
# Whether the core of another process can be made: a sandbox may not let one be traced.
makes_cores() {
    sleep 60 &
    local child=$! made
    gcore -o "$work/tried" $child > /dev/null 2>&1
    made=$?
    kill $child
    return $made
}

look() { # NAME PROGRAM..
    local name=$1 told
    shift
    told=$(PYTHONPATH=$here/python/src python3 "$here/tests/look.py" "${core[@]}" "$@" 2>&1)
    check "$name: keys in memory" 0 $?
    grep FAILED <<< "$told"
    echo "$name: secrets $(grep -v FAILED <<< "$told" | paste -sd';')"
}

test_memory() {
    "$OUT/stack" "$replay/config.toml" > "$work/stack.out" 2>&1
    check "the stack of each call is less than what is wiped" 0 $?
    grep FAILED "$work/stack.out"
    echo "stack: the deepest $(grep -v -e _new -e config_fault -e reconfigure "$work/stack.out" \
        | grep -o '[0-9]* octets' | sort -n | tail -1), while a configuration is read $(grep -e _new -e config_fault \
        -e reconfigure "$work/stack.out" | grep -o '[0-9]* octets' | sort -n | tail -1)"
    if ! command -v python3 > /dev/null; then echo "skipped: looks for keys in memory: there is no python3"; return; fi
    core=()
    if ! command -v gcore > /dev/null; then
        echo "skipped: looks for keys in cores and registers: there is no gcore (apt-get install gdb)"
    elif ! makes_cores; then
        echo "skipped: looks for keys in cores and registers: no process may be traced here"
    else
        core=(--gcore)
    fi
    look C "$OUT/hold"
    look Python python3 "$here/tests/hold.py"
    test_secure_heap
}

# The build option by which the heap is OpenSSL's: locked, and in no core.
test_secure_heap() {
    if ! echo '#include <openssl/crypto.h>' | cc -fsyntax-only -x c - 2> /dev/null; then
        echo "skipped: OpenSSL's secure heap (apt-get install libssl-dev)"
        return
    fi
    (
        cd "$here" || exit
        cc -std=c11 -O2 -Wall -Wextra -Werror -DSNMPSEC_SECURE_HEAP=4194304 -Iinclude -Iexamples \
            $(listed library_sources) examples/words_of.c \
            tests/hold.c "$archive" -lcrypto -o "$OUT/hold_secure"
    ) > "$work/secure.log" 2>&1
    check "the library over OpenSSL's secure heap" 0 $?
    look "OpenSSL's secure heap" --locked "$OUT/hold_secure"
}

# Nobody of the same user may look into the agent, and no core of it is written.
test_not_dumpable() {
    local folder=$work/undumped as=()
    if [ "$programs" != "$OUT" ]; then local programs=$OUT; fi
    mkdir -p "$folder"
    cp "$OUT/agent" "$here/examples/agent.toml" "$here/examples/table.txt" "$folder"
    if [ "$(id -u)" = 0 ]; then
        if ! command -v setpriv > /dev/null; then
            echo "skipped: who may look into the agent: there is no setpriv"
            return
        fi
        chmod 711 "$work"
        chown -R 65534 "$folder"
        as=(setpriv --reuid=65534 --regid=65534 --clear-groups)
    fi
    "${as[@]}" "$folder/agent" "$folder/agent.toml" "$folder/table.txt" $engine "$folder/boots" "$port" > /dev/null \
        2>&1 &
    agent=$!
    pids+=("$agent")
    bound "$port"
    check "the agent's environment can't be read by its user" 1 \
        "$("${as[@]}" cat "/proc/$agent/environ" > /dev/null 2>&1; echo $?)"
    check "its boots file is its user's alone" 600 "$(stat -c %a "$folder/boots")"
    end_agent
}

test_threads() {
    local tool
    printf '[[user]]\nname = "bob"\nauth = "sha1"\nauth-password = "maplesyrup"\npriv-password = "syrupmaple"\n' \
        > "$work/one.toml"
    check "threads with 64 KB of stack" ended "$("$OUT/threads" "$work/one.toml" small 20 2>&1)"
    if ! command -v valgrind > /dev/null; then
        echo "skipped: races between handles: there is no valgrind (apt-get install valgrind)"
        return
    fi
    for tool in helgrind drd; do
        if ! valgrind -q --tool=$tool true > /dev/null 2>&1; then echo "skipped: $tool doesn't run here"; continue; fi
        valgrind -q --tool=$tool --error-exitcode=9 "$OUT/threads" "$work/one.toml" own 20 > "$work/$tool.own" 2>&1 & \
            local own=$!
        valgrind -q --tool=$tool --error-exitcode=9 "$OUT/threads" "$work/one.toml" shared 20 > "$work/$tool.shared" \
            2>&1 & local shared=$!
        wait $own
        check "$tool: handles of their own have no race" 0 $?
        wait $shared
        check "$tool: a shared one has" 9 $?
    done
}

test_memory
test_not_dumpable
test_threads
