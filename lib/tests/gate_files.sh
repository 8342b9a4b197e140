# The gateway's files: on a full disk, and killed at any moment. test.sh runs this.
. "$here/tests/own_gate.sh"
full=$work/full_gate

fill() { dd if=/dev/zero of="$full/fill" bs=4096 2> /dev/null; }

# A full disk keeps the gateway from a start, since no boots may come twice; but one that runs goes on with the boots
# that it has.
test_gate_full_disk() {
    mkdir -p "$full"
    if ! mount -t tmpfs -o size=64k,mode=700 none "$full" 2> /dev/null; then
        echo "skipped: the gateway on a full disk, since only root may mount one"
        return
    fi
    write_own_config
    sed -i "s,^boots = .*,boots = \"$full/boots\"," "$own/gate.toml"
    begin_own "$programs/snmpsec-gate" --counts "$full/counts" --log-datagrams "$full/datagrams"
    check "the boots of a first start" 1 "$(cat "$full/boots")"
    fill
    test_full_boots
    test_full_counts
    test_full_log
    end_own
    check "it ends as ever" 0 $?
    test_full_start
    umount "$full"
}

test_full_boots() {
    kill -HUP "$gate"
    tells "no room for the boots" "^$full/boots: No space left on device\$"
    tells "so the file isn't taken" 'gate.toml isn.t taken, all stays as it was$'
    check "the boots stay" 1 "$(cat "$full/boots")"
    has "and it goes on" "value 1" "$(asks get $system.1.0)"
}

test_full_counts() {
    kill -USR1 "$gate"
    tells "no room for the counts" "^$full/counts: No space left on device\$"
    has "and it goes on, too" "value 1" "$(asks get $system.1.0)"
}

test_full_log() {
    local n
    for n in {1..12}; do asks get $system.$((n % 10 + 1)).0; done > "$own/got"
    check "each request is answered" 12 "$(grep -c value "$own/got")"
    tells "no room for a datagram" "^snmpsec-gate: $full/datagrams: No space left on device: a datagram isn't logged\$"
    check "the lines of the log are whole" "" "$(grep -v -E '^[0-9]+ ([0-9a-f]{2})+$' "$full/datagrams")"
    rm "$full/fill"
    n=$(wc -l < "$full/datagrams")
    has "with room again" "value 1" "$(asks get $system.1.0)"
    check "datagrams are logged again" 1 $(($(wc -l < "$full/datagrams") > n))
    kill -HUP "$gate"
    tells "and the file is read anew" 'gate.toml is read anew$'
    check "with one more boot" 2 "$(cat "$full/boots")"
    kill -USR1 "$gate"
    for _ in {1..200}; do [ -s "$full/counts" ] && break; sleep 0.1; done
    check "the counts say how many datagrams aren't logged" 1 \
        $(($(sed -n 's/^snmpsec_gate_unlogged_total //p' "$full/counts") > 0))
}

test_full_start() {
    rm -f "$full/counts" "$full/datagrams"
    fill
    check "a start on a full disk" "$full/boots: No space left on device
1" "$("$programs/snmpsec-gate" "$own/gate.toml" 2>&1 \
        | grep -v -e 'write-community' -e 'octets of datagrams'; echo "${PIPESTATUS[0]}")"
    check "the boots of before stay" 2 "$(cat "$full/boots")"
}

# Milliseconds from a start until its boots are kept.
time_of_start() {
    local begun tries
    begun=$(date +%s%N)
    "$programs/snmpsec-gate" "$own/gate.toml" > /dev/null 2>> "$own/killed.err" & gate=$!
    for tries in {1..500}; do [ -s "$own/boots" ] && break; sleep 0.01; done
    echo $((($(date +%s%N) - begun) / 1000000))
    { kill -9 "$gate" && wait "$gate"; } 2> /dev/null
}

# Killed at random while clients ask: each start has boots of its own, and the last one answers.
test_gate_killed() {
    local i told=() clients=() last most
    write_own_config
    rm -f "$own"/boots*
    most=$((3 * $(time_of_start)))
    for i in 1 2 3; do
        (while :; do patience=0.2 asks set_variables $system.4.0 s "client $i"; done) > "$own/client$i" 2>&1 & \
            clients+=($!)
    done
    for _ in {1..30}; do
        "$programs/snmpsec-gate" "$own/gate.toml" > /dev/null 2>> "$own/killed.err" & gate=$!
        sleep "$(printf '%d.%03d' $((i = RANDOM % most, i / 1000)) $((i % 1000)))"
        { kill -9 "$gate" && wait "$gate"; } 2> /dev/null
        told+=("$(cat "$own/boots" 2> /dev/null)")
    done
    { kill "${clients[@]}" && wait "${clients[@]}"; } 2> /dev/null
    printf '%s\n' "${told[@]}" | grep . > "$own/told"
    check "the boots go up, each time by one at most" "" \
        "$(awk 'NR > 1 && $1 != last && $1 != last + 1 { print last, $1 } { last = $1 }' "$own/told")"
    last=$(tail -1 "$own/told")
    check "some starts got so far" 1 $((last > 3))
    begin_own "$programs/snmpsec-gate"
    check "the next one has one more" $((last + 1)) "$(cat "$own/boots")"
    has "and answers" "value 2" "$(asks get $system.2.0)"
    check "nothing is left over" "boots boots.lock" "$(cd "$own" && echo boots*)"
    end_own
    echo "gate: killed 30 times, $last starts kept their boots"
}

# Each system call that it makes, from its start to its end, is one that its unit allows.
test_gate_calls_allowed() {
    if ! command -v systemd-analyze > /dev/null || ! strace -qq -o /dev/null true 2> /dev/null; then
        echo "skipped: the gateway's system calls beside its unit (apt-get install systemd strace)"
        return
    fi
    write_own_config
    begin_own strace -f -qq -o "$own/strace" "$OUT/snmpsec-gate" --counts "$own/counts" --log-datagrams "$own/logged"
    asks set_variables $system.4.0 s ann > /dev/null
    asks walk $system > /dev/null
    echo silent > "$own/wrong"
    patience=1 asks get $system.1.0 > /dev/null
    : > "$own/wrong"
    pkill -P "$gate" -HUP
    tells "under strace it reads its file anew" 'gate.toml is read anew$'
    pkill -P "$gate" -USR1
    pkill -P "$gate" -TERM
    wait "$gate"
    check "under strace it ends" 0 $?
    check "its unit allows each of its system calls" "0" \
        "$(python3 "$here/tests/filtered_calls.py" "$here/gate/snmpsec-gate.service" "$own/strace" \
            > "$own/filtered"; echo $?)"
    echo "gate: $(paste -sd' ' "$own/filtered")"
}

if ! command -v python3 > /dev/null; then
    echo "skipped: the gateway's files: python3 isn't installed"
else
    mkdir -p -m 700 "$own"
    begin_own_device
    test_gate_full_disk
    test_gate_killed
    test_gate_calls_allowed
    end_own_device
fi
