# The gateway's memory: what is left of keys, passwords and communities once it has ended, and what valgrind's memcheck
# finds. test.sh runs this.
. "$here/tests/own_gate.sh"

test_gate_secrets() {
    local core=()
    if [ "$(id -u)" != 0 ]; then
        echo "skipped: looks for the gateway's secrets, since only root may look into it"
        return
    fi
    cc -shared -fPIC -O1 "$here/tests/ended.c" -o "$own/ended.so"
    check "what stops the gateway at its end is built" 0 $?
    if ! command -v gcore > /dev/null; then
        echo "skipped: looks for the gateway's secrets in cores and registers: there is no gcore (apt-get install gdb)"
    elif gcore -o "$own/tried" $$ > /dev/null 2>&1; then
        core=(--gcore)
    else
        echo "skipped: looks for the gateway's secrets in cores and registers: no process may be traced here"
    fi
    rm -f "$own"/tried*
    PYTHONPATH=$here/python/src PYTHONDONTWRITEBYTECODE=1 python3 "$here/tests/look_gate.py" "${core[@]}" \
        "$OUT/snmpsec-gate" "$own/ended.so" \
        "$gate_port" "$device_port" > "$own/look" 2>&1
    check "no key, password or community is left once it has ended" 0 $?
    grep -v ' looked for' "$own/look"
    echo "gate: $(tail -1 "$own/look")"
}

test_gate_valgrind() {
    if ! command -v valgrind > /dev/null; then
        echo "skipped: the gateway under valgrind (apt-get install valgrind)"
        return
    fi
    write_own_config "waiting = 64"
    : > "$own/err"
    valgrind -q --leak-check=full --show-leak-kinds=all --errors-for-leak-kinds=all --error-exitcode=9 \
        --log-file="$own/valgrind" \
        "$OUT/snmpsec-gate" --counts "$own/counts" --log-datagrams "$own/logged" "$own/gate.toml" > "$own/out" \
        2>> "$own/err" &
    gate=$!
    pids+=("$gate")
    for _ in {1..300}; do
        [ -n "$(ours get -u plain -l noAuthNoPriv -n pdu -t 1 -r 0 "$through" $system.1.0 | grep value)" ] && break
    done
    has "beside valgrind: a get" "value 1" "$(asks get $system.1.0 $system.99.0)"
    has "a walk" "value 10" "$(asks walk $system)"
    has "a set" "ann" "$(asks set_variables $system.4.0 s ann)"
    has "a refusal" "usmStatsWrongDigests" "$(password=wrongwrong patience=1 asks get $system.1.0)"
    echo status=5 > "$own/wrong"
    asks get $system.1.0 > /dev/null
    echo silent > "$own/wrong"
    patience=1 asks get $system.1.0 $system.2.0 > /dev/null
    : > "$own/wrong"
    python3 -c 'import os, random, socket, sys
s = socket.socket(socket.AF_INET, socket.SOCK_DGRAM)
for n in range(200): s.sendto(os.urandom(random.randrange(0, 1400)), ("127.0.0.1", int(sys.argv[1])))' "$gate_port"
    kill -HUP "$gate"
    tells "it reads its file anew" 'is read anew$'
    has "and goes on" "value 2" "$(asks get $system.2.0)"
    kill "$gate"
    wait "$gate"
    check "valgrind finds no error and no leak in the gateway" 0 $?
    head -40 "$own/valgrind"
}

if ! command -v python3 > /dev/null; then
    echo "skipped: the gateway's memory: python3 isn't installed"
else
    mkdir -p -m 700 "$own"
    begin_own_device
    test_gate_secrets
    test_gate_valgrind
    end_own_device
fi
