# Traps of devices through the gateway as Informs: net-snmp's snmptrapd, pysnmp and snmpsec-listen acknowledge them, and
# a proxy makes trouble. It takes the functions of gate_traps.sh. test.sh runs this.
away_at=$((port + 21)) proxy_at=$((port + 22)) listen_at=$((port + 23)) pysnmp_at=$((port + 24))

# lines_of PATTERN FILE: how many lines have it
lines_of() { grep -c -- "$1" "$2"; }

begin_informs() \
    { # [RECEIVER..]: a gateway with these, each "USER LEVEL PORT [KIND]", or with all of gate_traps.sh by Informs
    local receiver words traps_kind=inform
    [ $# = 0 ] || traps_kind=none
    write_traps_config "$receivers"
    for receiver in "$@"; do
        read -r -a words <<< "$receiver"
        write_receiver "${words[@]}" >> "$traps/gate.toml"
    done
    begin_lines
    begin_traps
}

end_informs() {
    kill "$gate"
    wait "$gate"
    check "the gateway ends well" 0 $?
}

test_informs_checked() {
    has "--check: a receiver of Informs" \
        "user md5-priv at 127.0.0.1:$traps_to, authPriv, by Informs: notified of pdu pump" \
        "$("$programs/snmpsec-gate" --check "$traps/gate.toml" 2>&1)"
    sed 's/"inform"/"letter"/' "$traps/gate.toml" > "$traps/none.toml"
    has "--check: another kind" 'receiver 0: kind: "trap" or "inform"' \
        "$("$programs/snmpsec-gate" --check "$traps/none.toml" 2>&1)"
}

test_informs_acknowledged() {
    local user level
    notifies 127.0.0.1 reads 4242 $link_down $index i 7
    while read -r user _ level view; do
        [ "$view" = all ] || continue
        in_file "$level of $user: snmptrapd gets an Inform" "$traps/got" \
            "INFORM, SNMP v3, user $user, context pdu, .*= Timeticks: (4242) .*\.1\.3\.6\.1\.6\.3\.1\.1\.4\.1\.0 = OID: \.$link_down.*\.$index = INTEGER: 7"
        in_file "$level of $user: it is sent" "$traps/err" \
            "^device pdu notifies of $link_down: sent as an Inform to user $user at 127.0.0.1:$traps_to\$"
        in_file "$level of $user: it is acknowledged" "$traps/err" \
            "^device pdu notifies of $link_down: acknowledged by user $user at 127.0.0.1:$traps_to\$"
    done <<< "$receivers"
    check "who may not see a variable gets nothing" "" "$(grep sha256-priv "$traps/got" "$traps/err")"
    sleep 1 # (at most 10 lines of a kind are written in a second)
    notifies 127.0.0.2 other 1 $link_down
    in_file "another device: its context" "$traps/got" "user sha256-priv, context pump, "
    for _ in {1..200}; do [ "$(lines_of 'device pump .*: acknowledged by' "$traps/err")" = 7 ] && break; sleep 0.1; done
    check "each of seven acknowledges it" 7 "$(lines_of 'device pump .*: acknowledged by' "$traps/err")"
    check "and gets it once" 7 "$(lines_of 'context pump' "$traps/got")"
}

test_informs_counted() {
    rm -f "$traps/counts"
    kill -USR1 "$gate"
    for _ in {1..200}; do [ -s "$traps/counts" ] && break; sleep 0.1; done
    local sample
    for sample in 'informs_total{event="begins"} 13' 'informs_total{event="acknowledged"} 13' \
        'informs_total{event="given_up"} 0' \
        'informs_sent_total{message="discovery"} 13' 'informs_sent_total{message="inform"} 13' informs_waiting\ 0; do
        check "counts: $sample" 1 "$(grep -c "^snmpsec_gate_$sample\$" "$traps/counts")"
    done
}

# A receiver that is stopped for a while gets each notification once.
test_informs_stopped() {
    begin_lines
    kill -STOP "$snmptrapd"
    notifies 127.0.0.2 other 91 $link_down
    sleep 5.5
    kill -CONT "$snmptrapd"
    in_file "a receiver that was stopped" "$traps/err" ": acknowledged by user sha256-priv"
    for _ in {1..100}; do [ "$(lines_of ': acknowledged by' "$traps/err")" = 7 ] && break; sleep 0.1; done
    sleep 0.5
    check "acknowledges once" 7 "$(lines_of ': acknowledged by' "$traps/err")"
}

# A receiver that is away gets what was sent before, if it is there for the last of three tries. A machine at its limit
# may begin it too late.
test_informs_away() {
    for _ in {1..3}; do
        kill "$snmptrapd"
        wait "$snmptrapd" 2> /dev/null
        begin_lines
        notifies 127.0.0.2 other 92 $link_down
        begin_snmptrapd
        comes "$traps/err" ": acknowledged by user sha256-priv" && break
    done
    in_file "a receiver that begins anew gets what was sent before" "$traps/got" \
        "user sha256-priv, context pump, .*Timeticks: (92) "
    in_file "and acknowledges it" "$traps/err" ": acknowledged by user sha256-priv"
}

# Two users at one engine, and the Report that tells the time is lost for one of them. When it is asked for the time
# again, the other one's Inform has learned it: what would be within the time window then isn't a notification, and
# snmptrapd wouldn't answer it.
test_informs_of_two_users() {
    local user
    begin_lines
    echo lost > "$traps/word"
    notifies 127.0.0.2 other 97 $link_down
    for user in sha256-auth sha1-auth; do
        in_file "a Report on the time is lost: $user acknowledges" "$traps/err" \
            ": acknowledged by user $user at 127.0.0.1:$proxy_at"
    done
    echo nothing > "$traps/word"
}

# What comes late, twice, forged or from another address ends no Inform, and the true answer does.
test_informs_troubled() {
    local word
    for word in nothing twice late forged "forged twice"; do
        begin_lines
        echo "$word" > "$traps/word"
        notifies 127.0.0.2 other 93 $link_down
        in_file "answers $word: it is acknowledged" "$traps/err" \
            ": acknowledged by user sha256-auth at 127.0.0.1:$proxy_at"
        sleep 0.3
        check "answers $word: once" 1 "$(lines_of ': acknowledged by user sha256-auth' "$traps/err")"
        check "answers $word: the receiver got it once" 1 "$(lines_of 'user sha256-auth, context pump' "$traps/got")"
    done
    has "forged answers are reported" \
        "WRONG_DIGEST from a receiver, user sha256-auth at 127.0.0.1:$proxy_at (not authenticated)" \
        "$(cat "$traps/err")"
    begin_lines
    echo other > "$traps/word"
    notifies 127.0.0.2 other 94 $link_down
    sleep 8 # (it is sent three times, 5 seconds apart)
    in_file "answers from another address don't come to it" "$traps/err" \
        "not acknowledged by user sha256-auth at 127.0.0.1:$proxy_at: "
    in_file "where nobody is" "$traps/err" \
        "not acknowledged by user sha1-priv at 127.0.0.1:$away_at: its engine doesn't answer\$"
}

test_informs_to_pysnmp() {
    if ! /usr/bin/python3 -c 'import pysnmp.entity' 2> /dev/null; then
        echo "skipped: pysnmp as a receiver (apt-get install python3-pysnmp4)"
        return
    fi
    /usr/bin/python3 "$here/tests/gate_pysnmp_receiver.py" "$pysnmp_at" "$trap_engine" > "$traps/pysnmp" 2>&1 &
    local receiver=$! kind
    pids+=("$receiver")
    bound "$pysnmp_at"
    for kind in inform trap; do
        begin_informs "sha256-priv authPriv $pysnmp_at $kind"
        notifies 127.0.0.2 other 95 $link_down
        [ $kind = trap ] || in_file "pysnmp acknowledges an Inform" "$traps/err" \
            ": acknowledged by user sha256-priv at 127.0.0.1:$pysnmp_at\$"
        in_file "pysnmp gets it" "$traps/pysnmp" "^pump .*1.3.6.1.6.3.1.1.4.1.0=$link_down"
        : > "$traps/pysnmp"
        end_informs
    done
    kill "$receiver"
}

test_informs_to_listen() {
    password=maplesyrup privacy=syrupmaple ours listen -u sha256-priv -a SHA-256 --engine 8000000005060708 --boots \
        "$traps/listen.boots" --count 2 "127.0.0.1:$listen_at" > "$traps/listened" &
    local receiver=$! kind
    pids+=("$receiver")
    bound "$listen_at"
    for kind in inform trap; do
        begin_informs "sha256-priv authPriv $listen_at $kind"
        notifies 127.0.0.2 other 96 $link_down
        [ $kind = trap ] || in_file "snmpsec-listen acknowledges an Inform" "$traps/err" \
            ": acknowledged by user sha256-priv at 127.0.0.1:$listen_at\$"
        in_file "snmpsec-listen prints it" "$traps/listened" \
            "^$kind from 127.0.0.1 port [0-9]* user sha256-priv level authPriv engine $trap_engine\$"
        end_informs
    done
    if [ "$(grep -c '^inform\|^trap' "$traps/listened")" = 2 ]; then wait "$receiver"; else kill "$receiver"; fi
}

if ! command -v snmptrapd > /dev/null || ! command -v snmptrap > /dev/null; then
    echo "skipped: the gateway's Informs: snmptrap or snmptrapd isn't installed"
else
    rm -rf "$traps/persist"
    write_snmptrapd
    begin_snmptrapd
    begin_informs
    test_informs_checked
    test_informs_acknowledged
    test_informs_counted
    test_informs_stopped
    test_informs_away
    end_informs
    if command -v python3 > /dev/null; then
        echo nothing > "$traps/word"
        PYTHONPATH=$here/python/src python3 "$here/tests/inform_proxy.py" "$proxy_at" "$traps_to" "$traps/word" \
            > "$traps/proxied" 2>&1 &
        proxy=$!
        pids+=("$proxy")
        bound "$proxy_at"
        begin_informs "sha256-auth authNoPriv $proxy_at inform" "sha1-priv authPriv $away_at inform"
        test_informs_troubled
        end_informs
        begin_informs "sha256-auth authNoPriv $proxy_at inform" "sha1-auth authNoPriv $proxy_at inform"
        test_informs_of_two_users
        end_informs
        kill "$proxy"
        check "the proxy says nothing wrong" "" "$(cat "$traps/proxied")"
        test_informs_to_pysnmp
        test_informs_to_listen
    fi
    kill "$snmptrapd"
    wait "$snmptrapd" 2> /dev/null
fi
