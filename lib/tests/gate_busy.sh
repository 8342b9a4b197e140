# What the gateway does when nobody reads its lines, when more comes than has room, and when it is late; and what its
# check says of its file. test.sh runs this.
. "$here/tests/own_gate.sh"

# A log that nobody reads doesn't stop it, and what was dropped is counted.
test_full_log() {
    write_own_config
    rm -f "$own/drain"
    python3 "$here/tests/full_log.py" "$own/drain" "$programs/snmpsec-gate" --counts "$own/counts" "$own/gate.toml" \
        > "$own/err" &
    local reader=$!
    pids+=("$reader")
    bound "$gate_port"
    gate=$(pgrep -P "$reader")
    pids+=("$gate")
    has "it answers while nobody reads its lines" "value 1" "$(asks get $system.1.0)"
    has "and goes on after a line" "snmpUnknownContexts" "$(context=other asks get $system.1.0)"
    has "it answers again" "value 2" "$(asks get $system.2.0)"
    touch "$own/drain"
    context=other asks get $system.1.0 > /dev/null
    tells "the lines that were dropped are counted" '^[0-9]* lines were dropped, since nobody read them$'
    tells "and the next line is there" '^unhandled, .*snmpUnknownContexts'
    kill "$gate"
    wait "$reader"
    check "the counts say it, too" 1 "$(grep -c '^snmpsec_gate_dropped_lines_total [1-9]' "$own/counts")"
}

# junk COUNT: so many datagrams of one octet
junk() {
    python3 -c 'import socket, sys
sender = socket.socket(socket.AF_INET, socket.SOCK_DGRAM)
for _ in range(int(sys.argv[1])):
    sender.sendto(b"x", ("127.0.0.1", int(sys.argv[2])))' "$1" "$gate_port"
}

# What a listening socket had no room for is counted, and reported with its address.
test_lost() {
    write_own_config
    begin_own "$programs/snmpsec-gate" --counts "$own/counts"
    tells "the room of a socket is reported" "^snmpsec-gate: $through: [0-9]* octets of datagrams may wait"
    kill -STOP "$gate"
    junk 40000
    kill -CONT "$gate"
    has "it answers after a burst" "value 1" "$(patience=20 asks get $system.1.0)"
    tells "what was lost is reported" "^$through: no room for [0-9]* datagrams, [0-9]* in all\$"
    end_own
    check "and counted" 1 \
        "$(grep -c "^snmpsec_gate_receive_overflows_total{socket=\"$through\"} [1-9]" "$own/counts")"
}

# As many sockets have an answer as a late gateway has devices, more than were once read at a time.
test_late() {
    local n devices=100
    write_own_config
    for ((n = 0; n < devices; n++)); do
        printf '[[device]]\ncontext = "c%d"\naddress = "%s"\ncommunity = "a community that reads"\n' $n "$beside"
    done >> "$own/gate.toml"
    sed -i 's/^again = .*/again = 7000/; s/^last = .*/last = 8000/' "$own/gate.toml"
    begin_own "$programs/snmpsec-gate"
    check "what lies in sockets is read before anything is given up" $devices \
        "$(PYTHONPATH=$here/python/src python3 "$here/tests/many_devices.py" "$gate_port" "$device_port" "$gate" \
            "$device" $devices 2> "$own/late.err")"
    end_own
}

# asked_beside SHARE: how many of 20 requests are answered beside 200 to a device that doesn't answer, of which SHARE
# may wait at once and 16 in all
asked_beside() {
    write_own_config "waiting = 16" "waiting-per-device = $1"
    begin_own "$programs/snmpsec-gate"
    PYTHONPATH=$here/python/src python3 "$here/tests/silent_device.py" "$gate_port" 80001f8804676174652d32 pdu \
        'a "b\c' 20
    end_own
}

# A device that doesn't answer takes no room from the others, beyond its share.
test_silent_device() {
    check "a silent device leaves room" "20 of 20" "$(asked_beside 8)"
    check "without a share it takes all" 1 "$(($(asked_beside 16 | cut -d' ' -f1) < 20))"
}

# checked MODE: what --check says of the file with this mode
checked() {
    chmod "$1" "$own/gate.toml"
    "$programs/snmpsec-gate" --check "$own/gate.toml" 2>&1
}

test_check_of_file() {
    local engine pages=("$here/../docs" "$here/gate/gate.toml" "$here/../README.md")
    write_own_config
    has "--check: a file that all users may read" "gate.toml: all users may read its communities" "$(checked 644)"
    check "one that a group may read" "" "$(checked 640 | grep 'may read')"
    for engine in $(grep -rhoE '^engine = "[0-9a-f]+"' "${pages[@]}" | grep -oE '[0-9a-f]{10,}' | sort -u); do
        sed -i "s/^engine = .*/engine = \"$engine\"/" "$own/gate.toml"
        has "--check: the example's engine ID $engine" "engine: $engine is an example's engine ID" "$(checked 600)"
    done
    check "there are some" 1 $((${#engine} > 0))
    sed -i "s/^engine = .*/engine = \"80001F8804676174652D31\"/" "$own/gate.toml"
    has "--check: in capitals" "is an example's engine ID" "$(checked 600)"
}

# reads VIEW..: a group reads each of these views in a context of its own
reads() {
    local view n=0
    for view; do
        printf '[[access]]\ngroup = "low"\nprefix = "c%d"\nmodel = 3\nlevel = "noAuthNoPriv"\nmatch = "exact"\nread = "%s"\n' \
            $n "$view"
        n=$((n + 1))
    done >> "$own/gate.toml"
}

# A read view that no family row has is reported once.
test_check_of_views() {
    local without="no family row has it, so nobody sees anything by it"
    write_own_config
    check "--check: each read view has a family row" "" "$(checked 600 | grep 'read view')"
    reads none "view 2" all none "" all2
    check "--check: those that have none" "snmpsec-gate: read view none: $without
snmpsec-gate: read view view\x202: $without
snmpsec-gate: read view all2: $without" "$(checked 600 | grep 'read view')"
}

# systemd begins it again after five seconds, however often.
test_units() {
    local unit
    for unit in "$here"/gate/snmpsec-gate*.service; do
        check "$(basename "$unit"): no limit of starts" "StartLimitIntervalSec=0 RestartSec=5" \
            "$(sed -n '/^\[Unit\]/,/^\[Service\]/p' "$unit" | grep StartLimit) $(grep ^RestartSec "$unit")"
    done
}

if ! command -v python3 > /dev/null; then
    echo "skipped: the gateway when it is busy: python3 isn't installed"
else
    mkdir -p -m 700 "$own"
    begin_own_device
    test_full_log
    test_lost
    test_late
    test_silent_device
    test_check_of_file
    test_check_of_views
    test_units
    end_own_device
fi
