# What the gateway's lines and counts say of a device that misbehaves, of Sets and of what isn't answered. test.sh runs
# this.
. "$here/tests/own_gate.sh"
counts=$own/counts
asker="user sha256 from 127\.0\.0\.1:[0-9]*"

counted() { # NAME SAMPLE: what the counts say
    check "$1" "$2" "$(grep -F -- "${2% *} " "$counts" | grep -v '^#')"
}

test_lines_of_answers() {
    asks get $system.1.0 $system.2.0 > "$own/got"
    check "a good device" '.1.3.6.1.2.1.1.1.0 = STRING: "value 1"' "$(head -1 "$own/got")"
    echo status=5 > "$own/wrong"
    has "an error of the device" "genErr" "$(asks get $system.1.0 $system.2.0)"
    tells "with a line" \
        "^device pdu answers error-status 5 (genErr), index 1, to get $system.1.0 and 1 more of $asker\$"
    echo status=77 > "$own/wrong"
    asks get_next $system.1 > /dev/null
    tells "an error-status that there isn't" \
        "^device pdu answers error-status 77 (no such one), index 1, to getnext $system.1 of $asker\$"
    echo junk > "$own/wrong"
    has "junk before an answer" "value 3" "$(asks get $system.3.0)"
    tells "has a line" '^device pdu sends a datagram that isn.t a Response of SNMPv2c$'
    echo twice > "$own/wrong"
    has "an answer that comes twice" "value 4" "$(asks get $system.4.0)"
    tells "has a line, too" '^device pdu sends an answer for which nothing waits$'
}

# answers_wrongly WRONG LINE COMMAND WORDS..: the device answers so, which is genErr, and the line tells why
answers_wrongly() {
    local line=$2
    echo "$1" > "$own/wrong"
    shift 2
    has "an answer that doesn't fit" "genErr" "$(asks "$@")"
    tells "with a line" "^device pdu answers wrongly to $line\$"
    : > "$own/wrong"
}

test_lines_of_misfits() {
    answers_wrongly fewer "get $system.1.0 and 1 more of $asker: it has 1 bindings, too few" get $system.1.0 $system.2.0
    answers_wrongly more "get $system.1.0 of $asker: it has 2 bindings, too many" get $system.1.0
    answers_wrongly same "get $system.1.0 and 1 more of $asker: binding 2 is $system.1.0, which isn't what was asked" get \
        $system.1.0 $system.2.0
    answers_wrongly same "getnext $system.3 of $asker: binding 1 is $system.3, which isn't after what was asked" get_next \
        $system.3
    answers_wrongly misspelled \
        "get $system.1.0 and 1 more of $asker: binding 2, $system.2.0, has no value that can be read" get $system.1.0 \
        $system.2.0
}

test_lines_of_rounds() {
    echo slow > "$own/wrong"
    has "a walk over what is hidden" "genErr" "$(asks get_next $rows)"
    tells "has a line" "^$asker wants more than 64 rounds: getnext $rows"
    : > "$own/wrong"
}

test_lines_of_silence() {
    echo silent > "$own/wrong"
    patience=1 asks get $system.1.0 $system.2.0 $system.3.0 > /dev/null
    tells "a device that doesn't answer" \
        "^device pdu doesn't answer: $asker, get $system.1.0 and 2 more, asked 3 times\$"
    patience=1 asks set_variables $system.4.0 s ann > /dev/null
    tells "a Set without an answer" "^set $system.4.0 by $asker at device pdu: no answer, so it may have been done\$"
    : > "$own/wrong"
    patience=1 context='a "b\c' asks get $system.1.0 > /dev/null
    tells "a context that is hard to print" "^device a\\\\x20\"b\\\\x5cc doesn't answer"
}

# The datagram that came last comes again, from another port.
comes_again() {
    python3 -c 'import socket, sys
sender = socket.socket(socket.AF_INET, socket.SOCK_DGRAM)
sender.sendto(bytes.fromhex(sys.argv[1]), ("127.0.0.1", int(sys.argv[2])))' \
        "$(tail -1 "$own/datagrams" | cut -d' ' -f2)" "$gate_port"
}

test_lines_of_sets() {
    has "a Set" "bob" "$(asks set_variables $system.4.0 s bob $system.5.0 s bobs)"
    tells "has a line with its outcome" \
        "^set $system.4.0 and 1 more by $asker at device pdu: error-status 0 (noError), index 0\$"
    comes_again
    tells "and one where it comes again" \
        "^a repeated Set by $asker has its first answer: error-status 0 (noError), index 0\$"
    echo status=6 > "$own/wrong"
    has "a Set that the device refuses" "noAccess" "$(asks set_variables $system.4.0 s eve)"
    tells "has its line" "^set $system.4.0 by $asker at device pdu: error-status 6 (noAccess), index 1\$"
    tells "and one on the community" \
        "^device pdu refuses a Set, its write-community may not: set $system.4.0 of $asker\$"
    : > "$own/wrong"
}

test_lines_of_refusals() {
    has "another context" "snmpUnknownContexts" "$(context=other asks get $system.1.0)"
    tells "has a line" "^unhandled, $asker, context other: snmpUnknownContexts\$"
    context="plant 7" asks get $system.1.0 > /dev/null
    tells "which has a blank as \\x20" "^unhandled, $asker, context plant\\\\x207: snmpUnknownContexts\$"
    context="" asks get $system.1.0 > /dev/null
    tells "and of the default context quotes" "^unhandled, $asker, context \"\": snmpUnknownContexts\$"
    context=0123456789abcdef0123456789abcdefg asks get $system.1.0 > /dev/null
    tells "and of a longer one how long it is" "^unhandled, $asker, a context of 33 octets: snmpUnknownContexts\$"
}

test_counts_told() {
    kill -USR1 "$gate"
    for _ in {1..200}; do [ -s "$counts" ] && break; sleep 0.1; done
    counted "messages by their PDU" 'snmpsec_gate_messages_total{pdu="set"} 4'
    counted "a device's asks that were repeated" 'snmpsec_gate_device_total{device="pdu",event="asked_again"} 2'
    counted "that it was given up" 'snmpsec_gate_device_total{device="pdu",event="given_up"} 2'
    counted "what nothing waited for" 'snmpsec_gate_device_total{device="pdu",event="not_waited_for"} 1'
    counted "what is no Response" 'snmpsec_gate_device_total{device="pdu",event="unreadable"} 1'
    counted "an error-status" 'snmpsec_gate_answers_total{error_status="noAccess"} 1'
    counted "one that a client was told" 'snmpsec_gate_responses_total{error_status="noAccess"} 1'
    counted "Reports on requests" 'snmpsec_gate_request_reports_total 4'
    counted "what didn't fit" 'snmpsec_gate_misfits_total{misfit="other_name"} 1'
    counted "and what had no value" 'snmpsec_gate_misfits_total{misfit="no_value"} 1'
    counted "what took too many rounds" 'snmpsec_gate_rounds_used_up_total 1'
    counted "and a hidden variable in each of them" 'snmpsec_gate_hidden_bindings_total 64'
    counted "which device that was" 'snmpsec_gate_device_total{device="pdu",event="unfit"} 5'
    counted "one without a name" 'snmpsec_gate_answers_total{error_status="other"} 1'
    counted "a label with quotes" 'snmpsec_gate_device_total{device="a\\x20\"b\\x5cc",event="given_up"} 1'
    check "each sample is one of Prometheus" "" \
        "$(grep -v -E '^(# TYPE [a-z_]+ (counter|gauge)|[a-z_]+(\{[a-z_]+="([^"\\]|\\.)*"(,[a-z_]+="([^"\\]|\\.)*")*\})? [0-9]+)$' "$counts")"
    kill -HUP "$gate"
    tells "the file is read anew" 'is read anew$'
    comes_again
    tells "a message with the boots of before is authentic" \
        "^refused 10 NOT_IN_WINDOW from 127\.0\.0\.1:[0-9]* user sha256 (authenticated)\$"
    rm -f "$counts"
    kill -USR1 "$gate"
    for _ in {1..200}; do [ -s "$counts" ] && break; sleep 0.1; done
    counted "and counts of devices go on" 'snmpsec_gate_device_total{device="pdu",event="given_up"} 2'
}

test_datagrams_logged() {
    check "each datagram is a line" "" "$(grep -v -E '^[0-9]+ ([0-9a-f]{2})+$' "$own/datagrams")"
    check "there are some" 1 $(($(wc -l < "$own/datagrams") > 20))
    if [ -x "$program" ]; then
        check "as snmpsec reads them" 0 "$("$program" check-log "$own/datagrams" > /dev/null; echo $?)"
    fi
}

if ! command -v python3 > /dev/null; then
    echo "skipped: the gateway's lines: python3 isn't installed"
else
    write_own_config
    begin_own_device
    begin_own "$programs/snmpsec-gate" --counts "$counts" --log-datagrams "$own/datagrams"
    test_lines_of_answers
    test_lines_of_misfits
    test_lines_of_rounds
    test_lines_of_silence
    test_lines_of_sets
    test_lines_of_refusals
    test_counts_told
    end_own
    check "it ends at SIGTERM" 0 $?
    test_datagrams_logged
    check "no sanitizer found anything" "" "$(grep -a -i 'sanitizer\|runtime error' "$own/err")"
    end_own_device
    check "the device found nothing amiss" "" "$(cat "$own/device.err")"
fi
