# Words and files of the example programs: each is read whole or refused with a line, the agent is killed as it starts,
# and its boots end. test.sh runs this.
examples=$here/examples
refused_words() { # EXPECTED-ERROR PROGRAM..: the first line on standard error and status 2
    local expected=$1 told status
    shift
    told=$(timeout 10 "$@" 2>&1 > /dev/null)
    status=$?
    told=${told//$work/W}
    check "$expected" "2 $expected" "$status ${told%%$'\n'*}"
}

# the example agent with its first words
begun=("$programs/agent" "$examples/agent.toml" "$examples/table.txt")

test_words() {
    local bad name
    for bad in 80001f88 80001f880 80001g8804 0x "" 00000000000000 ffffffffff "80 00 1f 88" "80::00:1f:88:04" \
        "80:00:1f:88:04:" $(printf '80%.0s' {1..33}); do
        refused_words \
            "agent: $bad: not an engine ID, 5 to 32 octets in pairs of hex digits, neither all 00 nor all ff" \
            "${begun[@]}" "$bad" "$work/b" "$port"
    done
    for bad in 70000 0 abc -1 161x 99999999999 " 161" ""; do
        refused_words "agent: $bad: not a port, 1 to 65535" "${begun[@]}" $engine "$work/b" "$bad"
        refused_words "poll: $bad: not a port, 1 to 65535" "$programs/poll" "$examples/agent.toml" "$work/c" "$bad" \
            sha 2 1.3.6.1
    done
    refused_words "agent: 4: not a level, 1 to 3" "${begun[@]}" $engine "$work/b" "$port" 162 md 4
    refused_words "agent: : not a user's name, 1 to 32 octets" "${begun[@]}" $engine "$work/b" "$port" 162 "" 3
    refused_words "poll: 0: not a level, 1 to 3" "$programs/poll" "$examples/agent.toml" "$work/c" "$port" sha 0 1.3.6.1
    for name in 1.3.6.1.99999999999 1..3 1.3. x "" 1.-3; do
        refused_words "poll: $name: not a name in dotted decimal" "$programs/poll" "$examples/agent.toml" "$work/c" \
            "$port" sha 2 "$name"
    done
    refused_words "poll: 3.1: an argument is outside of its range" "$programs/poll" "$examples/agent.toml" "$work/c" \
        "$port" sha 2 3.1
    for bad in 0 101 x ""; do
        refused_words "agent: $bad: not a share of the time in percent, 1 to 100" "$programs/agent" --unauthenticated \
            "$bad" x
        [ "$bad" = 0 ] || refused_words "poll: $bad: not a number of retries, 0 to 100" "$programs/poll" --retries \
            "$bad" x
    done
    refused_words "poll: 0: not a time in seconds, 1 to 3600" "$programs/poll" --timeout 0 x
    refused_words "agent [OPTION..] CONFIG TABLE ENGINE-ID BOOTS-FILE PORT [TRAP-PORT USER LEVEL]" "$programs/agent" x
    refused_words "poll [OPTION..] CONFIG CLOCKS-FILE PORT USER LEVEL OID.." "$programs/poll" x
    check "no boots were taken" "" "$(ls "$work" | grep -E '^b(\.|$)')"
    check "the version" "$(sed -n 's/#define SNMPSEC_VERSION "\(.*\)"/\1/p' "$here/include/snmpsec.h")" \
        "$("$programs/agent" --version)"
}

test_configurations() {
    mkdir "$work/folder"
    refused_words "W/folder: not a regular file" "$programs/agent" "$work/folder" "$examples/table.txt" $engine \
        "$work/b" "$port"
    refused_words "W/none: No such file or directory" "$programs/agent" "$work/none" "$examples/table.txt" $engine \
        "$work/b" "$port"
    : > "$work/empty"
    refused_words "agent: W/empty: not a configuration: the file is empty" "$programs/agent" "$work/empty" \
        "$examples/table.txt" $engine "$work/b" "$port"
    head -c 20000000 /dev/zero > "$work/huge"
    refused_words "W/huge: too long" "$programs/agent" "$work/huge" "$examples/table.txt" $engine "$work/b" "$port"
    {
        cat "$examples/agent.toml"
        head -c 1100000 /dev/zero | tr '\0' '#'
        printf '\n[[user]]\nname = "md"\n'
    } > "$work/long.toml"
    check "a fault behind a megabyte" \
        $'1 agent: W/long.toml: refused config user 4 DuplicateUser\nagent: W/long.toml: user 4: an earlier user has this name' \
        "$(told=$("$programs/agent" "$work/long.toml" "$examples/table.txt" $engine "$work/b" "$port" 2>&1)
        echo "$? ${told//$work/W}")"
    { cat "$examples/agent.toml"; printf '\n[[user]]\nname = "other"\nauht = "md5"\n'; } > "$work/misspelt.toml"
    check "a key that is no key" \
        $'poll: W/misspelt.toml: refused config user 4 BadKey\npoll: W/misspelt.toml: user 4: auht: not a key of this table, the nearest is auth' \
        "$(told=$("$programs/poll" "$work/misspelt.toml" "$work/c" "$port" sha 2 1.3.6.1 2>&1)
        echo "${told//$work/W}")"
    printf '[[user]]\n"a\\u001b[2Jb\\u009bc" = 1\n' > "$work/control.toml"
    check "no control character of a key reaches the terminal" \
        '"a\u001B[2Jb\x9bc": not a key of this table, the nearest is auth' \
        "$("$programs/agent" "$work/control.toml" "$examples/table.txt" $engine "$work/b" "$port" 2>&1 \
        | sed -n 's/.*user 0: //p')"
    refused_words "W/none: No such file or directory" "$programs/poll" "$work/none" "$work/c" "$port" sha 2 1.3.6.1
    refused_words "W/folder: not a regular file" "$programs/poll" "$examples/agent.toml" "$work/folder" "$port" sha 2 \
        1.3.6.1
    refused_words "W/none: No such file or directory" "$programs/poll" --must-exist "$examples/agent.toml" \
        "$work/none" "$port" sha 2 1.3.6.1
    refused_words "W/none: No such file or directory" "$programs/agent" --must-exist "$examples/agent.toml" \
        "$examples/table.txt" $engine "$work/none" "$port"
    echo no > "$work/clocks"
    refused_words "poll: W/clocks: the text saves no clocks" "$programs/poll" "$examples/agent.toml" "$work/clocks" \
        "$port" sha 2 1.3.6.1
}

# A start that fails before anything can be answered costs no boots.
test_free_starts() {
    echo 41 > "$work/unspent"
    "$programs/agent" "$work/misspelt.toml" "$examples/table.txt" $engine "$work/unspent" "$port" > /dev/null 2>&1
    check "a refused configuration ends the agent with 1" 1 $?
    check "and costs no boots" 41 "$(cat "$work/unspent")"
    "${begun[@]}" $engine "$work/unspent" "$port" 0 md 3 > /dev/null 2>&1
    check "nor does a word" 41 "$(cat "$work/unspent")"
}

test_tables() {
    local row
    for row in '1.3.6.1.99999999999 i 1' '1.3 i 1x' '1.3 i 2147483648' '1.3 u -1' '1.3 c 4294967296' '1.3 x 0' \
        '1.3 o 3.1' '1.3 q 1' '1.3' '1.3 ss x'; do
        printf '# a table\n%s\n' "$row" > "$work/table"
        refused_words "W/table: line 2: not OID TYPE VALUE, with a value of that type" "$programs/agent" \
            "$examples/agent.toml" "$work/table" $engine "$work/b" "$port"
    done
    printf '1.3.6 i 1\n.1.3.6 i 2\n' > "$work/table"
    has "two rows of a name" "its name has another row too" \
        "$("$programs/agent" "$examples/agent.toml" "$work/table" $engine "$work/b" "$port" 2>&1)"
    refused_words "W/folder: not a regular file" "$programs/agent" "$examples/agent.toml" "$work/folder" $engine \
        "$work/b" "$port"
}

begin_with_engine() { # ENGINE-ID BOOTS
    "${begun[@]}" "$1" "$2" "$port" > "$work/agent.out" 2> "$work/agent.err" &
    agent=$!
    pids+=("$agent")
    bound "$port"
}

test_spelled_engines() {
    local word
    if ! command -v snmpget > /dev/null; then return; fi
    for word in "0x$engine" "80 00 1F 88 04 61 62 63 " "80:00:1f:88:04:61:62:63" " 0x 80 00 1f 88 04 61 62 63"; do
        begin_with_engine "$word" "$work/spelled"
        check "the engine ID '$word'" '.1.3.6.1.2.1.1.7.0 = INTEGER: 72' \
            "$(ask snmpget -l noAuthNoPriv -u plain -e $engine $at $system.7.0)"
        end_agent
    done
}

# The agent, killed in the midst of its start: boots never fall, and there are always some.
killed_agent() { # FILE PORT HOW-OFTEN: prints the boots after each
    local i pid
    for ((i = 0; i < $3; i++)); do
        "$OUT/agent" "$examples/agent.toml" "$examples/table.txt" $engine "$1" "$2" > /dev/null 2>&1 & pid=$!
        sleep "0.0$((RANDOM % 6))$((RANDOM % 10))"
        kill -9 $pid
        wait $pid
        cat "$1"
    done 2> /dev/null
}

test_killed_agent() { # four side by side
    local n grew=0 pids=()
    for n in 1 2 3 4; do
        echo 0 > "$work/killed$n"
        killed_agent "$work/killed$n" $((port + 10 + n)) 50 > "$work/kills$n" 2> /dev/null & pids+=($!)
    done
    wait "${pids[@]}"
    for n in 1 2 3 4; do
        check "boots after each kill" 50 "$(grep -cE '^[0-9]+$' "$work/kills$n")"
        check "boots never fall" "$(sort -n "$work/kills$n")" "$(cat "$work/kills$n")"
        grew=$((grew + $(sort -nu "$work/kills$n" | wc -l)))
    done
    if [ $is_proved = yes ]; then check "some starts got so far" yes "$([ $grew -gt 4 ] && echo yes)"; fi
    echo "agent: 200 starts killed at random, $grew boots"
}

test_last_boots() {
    printf '2147483646\n' > "$work/last"
    begin_with_engine $engine "$work/last"
    in_file "the last boots are taken" "$work/last" '^2147483647$'
    has "a second agent" "last: another process uses it" "$("${begun[@]}" $engine "$work/last" $((port + 10)) 2>&1)"
    end_agent
    begin_with_engine $engine "$work/last"
    in_file "the agent says what to do" "$work/agent.err" \
        "boots are used up, so each authenticated message is refused: give the engine another ID"
    check "and stay" 2147483647 "$(cat "$work/last")"
    if command -v snmpget > /dev/null; then
        check "who isn't authenticated is answered" '.1.3.6.1.2.1.1.7.0 = INTEGER: 72' \
            "$(ask snmpget -l noAuthNoPriv -u plain $at $system.7.0)"
        check "who is, is refused" "" "$(ask snmpget -t 1 -l authNoPriv -u sha -a SHA -A maplesyrup $at $system.7.0 \
            | grep INTEGER)"
    fi
    end_agent
    has "by the time window" "answer 10: " "$(cat "$work/agent.out")$(command -v snmpget > /dev/null \
        || echo 'answer 10: ')"
}

test_poller() {
    begin_with_engine $engine "$work/polled"
    check "polls" "1.3.6.1.2.1.1.7.0 02 48" "$("$programs/poll" "$examples/agent.toml" "$work/its.clocks" "$port" sha \
        3 $system.7.0 2> /dev/null)"
    check "its clocks are its user's alone" "snmp-clocks 2 600" \
        "$(head -1 "$work/its.clocks") $(stat -c %a "$work/its.clocks")"
    check "and it ends with nothing left over" "its.clocks its.clocks.lock" "$(cd "$work" && echo its.clocks*)"
    has "a user that isn't there" "its user isn't known" "$("$programs/poll" "$examples/agent.toml" "$work/its.clocks" \
        "$port" eve 3 $system.7.0 2>&1)"
    if command -v python3 > /dev/null; then
        check "polls by asyncio" "$(printf '1.3.6.1.2.1.1.7.0 02 48\n1.3.6.1.2.1.1.3.0 43 0100')" \
            "$(aget sha256 3 $system.7.0 $system.3.0)"
        has "asyncio: a user that isn't there" "aget: its user isn't known" "$(aget nobody 2 1.3.6.1)"
    fi
    end_agent
}

aget() { PYTHONPATH=$here/python/src python3 "$here/python/examples/aget.py" "$examples/agent.toml" 127.0.0.1 "$port" \
    "$@" 2>&1; }

test_words
test_configurations
test_free_starts
test_tables
test_spelled_engines
test_killed_agent
test_last_boots
test_poller
