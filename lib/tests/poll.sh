# The poller, against net-snmp's snmpd and against the example agent. test.sh runs this.
poll() { "$programs/poll" "$here/examples/agent.toml" "$1" "$2" "$3" "$4" $system.1.0 2> "$work/poll.err"; }

begin_snmpd() {
    SNMPCONFPATH=$work/snmpd SNMP_PERSISTENT_DIR=$work/snmpd snmpd -f -c "$work/snmpd.conf" -Lf "$work/snmpd.log" \
        -I -smux > /dev/null 2>&1 &
    snmpd=$!
    pids+=("$snmpd")
    bound "$snmpd_port"
}

end_snmpd() {
    kill "$snmpd"
    wait "$snmpd" 2> /dev/null
}

test_snmpd_polled() {
    local described="1.3.6.1.2.1.1.1.0 04 6c6f6f706261636b" user level boots
    begin_snmpd
    for user in md sha sha256; do
        for level in 2 3; do
            rm -f "$work/first"
            check "polls snmpd as $user at level $level" "$described" "$(poll "$work/first" $snmpd_port $user $level)"
            has "the first time by a report" "report of usmStatsNotInTimeWindows" "$(cat "$work/poll.err")"
            check "polls it again, begun anew" "$described" "$(poll "$work/first" $snmpd_port $user $level)"
            check "with what it kept" "" "$(cat "$work/poll.err")"
        done
    done
    boots=$(tail -1 "$work/first" | cut -d' ' -f2)
    end_snmpd
    begin_snmpd
    cp "$work/first" "$work/second"
    check "polls snmpd after its restart" "$described" "$(poll "$work/second" $snmpd_port sha 3)"
    has "by a report" "report of usmStatsNotInTimeWindows" "$(cat "$work/poll.err")"
    check "the boots went up" $((boots + 1)) "$(tail -1 "$work/second" | cut -d" " -f2)"
    end_snmpd
}

# The first poller knows snmpd before its restart, and the example agent; the second knows snmpd after it.
test_merged() {
    if [ ! -x "$program" ]; then echo "skipped: the program isn't built, which ./prove does"; return; fi
    "$program" merge-clocks "$work/first" "$work/second" > "$work/merged"
    check "two pollers' clocks merged: the later of each engine" "$(head -2 "$work/first"; tail -1 "$work/second")" \
        "$(cat "$work/merged")"
    check "and in the other order" "$(cat "$work/merged")" "$("$program" merge-clocks "$work/second" "$work/first")"
    begin_snmpd
    poll "$work/merged" $snmpd_port sha 3 > /dev/null
    has "snmpd, restarted again, is learned again" "report of usmStatsNotInTimeWindows" "$(cat "$work/poll.err")"
    end_snmpd
    check "polls the example agent with the merged clocks" "$polled" "$(poll "$work/merged" $port sha256 3)"
    check "which need no report" "" "$(cat "$work/poll.err")"
}

# Six pollers with one clocks file, and one that has waited while another one learned an engine.
test_one_file() {
    local n pids=() config=$here/examples/agent.toml
    for n in 1 2 3 4 5 6; do
        "$programs/poll" "$config" "$work/shared" "$port" sha256 3 $system.1.0 > "$work/shared$n" 2> /dev/null &
        pids+=($!)
    done
    wait "${pids[@]}"
    for n in 1 2 3 4 5 6; do check "six pollers with one clocks file: $n" "$polled" "$(cat "$work/shared$n")"; done
    if ! command -v python3 > /dev/null; then return; fi
    PYTHONPATH=$here/python/src python3 "$here/tests/fake.py" $((port + 3)) late > /dev/null 2>&1 &
    local fake=$!
    bound $((port + 3))
    rm "$work/shared"
    "$programs/poll" --timeout 1 "$config" "$work/shared" $((port + 3)) sha 2 $system.1.0 > /dev/null 2>&1 & pids=($!)
    poll "$work/shared" "$port" sha256 3 > /dev/null
    n=$(kill -0 "${pids[0]}" && wc -l < "$work/shared")
    check "one has saved, and the other is asking" 2 "$n"
    wait "${pids[@]}"
    { kill $fake; wait $fake; } 2> /dev/null
    n=$(sed 1d "$work/shared" | cut -d' ' -f1 | paste -sd' ')
    check "the clocks file of both has both engines" "80001f8804616263 80001f8804616b65" "$n"
}

polled="1.3.6.1.2.1.1.1.0 04 612070726f766564206167656e74"
if ! command -v snmpd > /dev/null; then
    echo "skipped: net-snmp's snmpd isn't installed (apt-get install snmpd)"
else
    mkdir -p "$work/snmpd"
    cat > "$work/snmpd.conf" << CONF
agentAddress udp:127.0.0.1:$snmpd_port
exactEngineID 0x80001f888001020304
sysDescr loopback
createUser md MD5 maplesyrup AES syrupmaple
createUser sha SHA maplesyrup AES another-one
createUser sha256 SHA-256 maplesyrup AES a-third-one
rouser md auth
rouser sha auth
rouser sha256 auth
CONF
    test_snmpd_polled
fi
begin_agent
check "polls the example agent" "$polled" "$(poll "$work/first" $port sha256 3)"
[ -f "$work/second" ] && test_merged
test_one_file
end_agent
