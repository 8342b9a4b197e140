# What an agent and a manager do besides security: sizes of answers, contexts, handlers, authorization, types, and who
# checks a Response (RFC 3412, sections 4.2.2 and 7; RFC 3413, section 3.2; RFC 3416, section 4.2). test.sh runs this.
export SNMPSEC_LIBRARY=$OUT/libsnmpsec.so.0 PYTHONDONTWRITEBYTECODE=1

# A configuration with a user of no group, and a table of 300 rows.
begin_dispatch() { # OPTIONS..
    { cat "$here/examples/agent.toml"; printf '\n[[user]]\nname = "nobody"\n'; } > "$work/dispatch.toml"
    {
        cat "$here/examples/table.txt"
        for n in {1..300}; do echo "$system.9.1.3.$n s the row with the number $n of them"; done
    } > "$work/dispatch.txt"
    "$programs/agent" "$@" "$work/dispatch.toml" "$work/dispatch.txt" "$engine" "$work/boots" "$port" \
        > "$work/agent.out" 2> "$work/agent.err" &
    agent=$!
    pids+=("$agent")
    bound "$port"
}

octets_in() { sed 's/.*: \([0-9]*\) octets,.*/\1/' <<< "$1"; }
sent_in() { sed 's/^sent \([0-9]*\):.*/\1/' <<< "$1"; }
bindings_in() { sed 's/.* \([0-9]*\) bindings.*/\1/' <<< "$1"; }

as_level() { # LEVEL: the words of a user who has it
    [ "$1" = 1 ] && echo "user=plain level=1" || echo "user=sha level=$1"
}

# Never an octet more than msgMaxSize, and one binding more would not fit.
test_cut_bulks() {
    local level most told count longer
    for level in 1 2 3; do
        for most in 484 500 519 520 1500; do
            told=$(raw $(as_level $level) max=$most tag=a5 third=200 $system.9.1.3)
            count=$(bindings_in "$told")
            longer=$(raw $(as_level $level) tag=a5 third=$((count + 1)) $system.9.1.3)
            check "a GetBulk at level $level in $most octets fits" 1 $(($(octets_in "$told") <= most && count > 0))
            check "and with one binding more it would not" 1 \
                $(($(octets_in "$longer") > most && $(bindings_in "$longer") == count + 1))
        done
    done
}

# A number below 0 counts as 0 (RFC 3416, section 4.2.3), and the request-id comes back.
test_negative_numbers() {
    local level told
    for level in 1 2 3; do
        told=$(raw $(as_level $level) id=-1 tag=a5 second=-1 third=2 $system.1 $system.4)
        has "non-repeaters of -1 at level $level" "status 0, index 0, context '', 4 bindings" "$told"
        has "and a request-id of -1" ", request-id -1" "$told"
        told=$(raw $(as_level $level) id=-2147483648 tag=a5 second=1 third=-2147483648 $system.1 $system.4)
        has "the least max-repetitions at level $level" "status 0, index 0, context '', 1 bindings" "$told"
        has "and the least request-id" ", request-id -2147483648" "$told"
    done
}

test_too_big() {
    has "a Get that is too long" "tag a2, status 1, index 0, context '', 0 bindings" \
        "$(raw max=484 times=40 $system.1.0)"
    has "a GetNext that is too long" "tag a2, status 1, index 0, context '', 0 bindings" \
        "$(raw max=484 tag=a1 times=40 $system.1.0)"
    has "a Set that is too long" "status 1, index 0, context '', 0 bindings" \
        "$(raw user=sha level=3 max=484 tag=a3 times=30 value=04:6f74686572 $system.4.0)"
    has "nothing was set by it" "=04:6e6f626f6479" "$(raw $system.4.0)"
    has "257 bindings" "status 0, index 0, context '', 257 bindings" "$(raw user=sha level=2 times=257 $system.1.0)"
    has "9,000 bindings" "status 0, index 0, context '', 9000 bindings" "$(raw user=sha level=2 times=9000 1.3)"
}

test_short_answers() { # of an agent that wasn't asked for long ones
    local told
    told=$(raw tag=a5 third=200 $system.9.1.3)
    check "without authentication an answer has at most 1,472 octets" 1 \
        $(($(octets_in "$told") <= 1472 && $(bindings_in "$told") > 20))
    check "with it, more" 200 "$(bindings_in "$(raw user=sha level=2 tag=a5 third=200 $system.9.1.3)")"
    told=$(raw times=60 $system.1.0)
    check "or twice its request" 1 $(($(octets_in "$told") > 1472 && $(bindings_in "$told") == 60))
}

test_no_amplification() { # of an agent that was asked for it
    local told
    told=$(raw tag=a5 third=1 times=40 $system.9.1.3.1)
    check "without authentication an answer is no longer than its request" 1 \
        $(($(octets_in "$told") <= $(sent_in "$told") && $(bindings_in "$told") > 0))
    has "where no variable fits it is tooBig" "status 1, index 0, context '', 0 bindings" \
        "$(raw tag=a5 third=10 $system)"
    has "so it is for a Get" "status 1, index 0, context '', 0 bindings" "$(raw $system.1.0)"
    check "with authentication, more" 200 "$(bindings_in "$(raw user=sha level=2 tag=a5 third=200 $system.9.1.3)")"
}

test_authorization() {
    local tag
    for tag in a0 a1 a3; do
        has "a user without a group, $tag" "status 16, index 0, context '', 1 bindings" \
            "$(raw user=nobody tag=$tag $system.1.0)"
    done
    has "a user without a group, GetBulk" "status 16, index 0" "$(raw user=nobody tag=a5 third=10 $system)"
    has "a Set without a write view" "status 16, index 0" "$(raw user=sha level=2 tag=a3 value=04:61 $system.4.0)"
    has "a Set outside of the view" "status 6, index 1" \
        "$(raw user=sha level=3 tag=a3 value=04:61 1.3.6.1.4.1.99999.1.0)"
    has "an INTEGER of no octets" "status 9, index 1" "$(raw user=sha level=3 tag=a3 value=02: $system.7.0)"
    has "an INTEGER of an octet too many" "status 9, index 1" "$(raw user=sha level=3 tag=a3 value=02:0005 $system.7.0)"
    has "a text instead of an INTEGER" "status 7, index 1" "$(raw user=sha level=3 tag=a3 value=04:61 $system.7.0)"
    has "a Set of no row" "status 17, index 1" "$(raw user=sha level=3 tag=a3 value=04:61 $system.9.0)"
    has "no such instance" "=81:" "$(raw $system.5.7)"
    has "no such object" "=80:" "$(raw $system.99.0)"
}

test_reports() {
    local level flags contexts=1.3.6.1.6.3.12.1.5.0=41 handlers=1.3.6.1.6.3.11.2.1.3.0=41
    for level in 1 2 3; do
        flags=$((level == 3 ? 3 : level - 1))
        has "an unknown context at level $level" \
            "flags $flags, tag a8, status 0, index 0, context '', 1 bindings $contexts:0$level" \
            "$(raw $(as_level $level) context=other $system.1.0)"
        has "another engine's context at level $level" \
            "flags $flags, tag a8, status 0, index 0, context '', 1 bindings $handlers:0$level" \
            "$(raw $(as_level $level) engine=8000000001020304 $system.1.0)"
    done
    has "an empty contextEngineID" "$handlers:04" "$(raw engine= $system.1.0)"
    has "an InformRequest" "flags 1, tag a8, status 0, index 0, context '', 1 bindings $handlers:05" \
        "$(raw user=sha level=2 tag=a6 $system.1.0)"
    has "a Trap is counted" "no answer" "$(raw tag=a7 $system.1.0)"
    has "a Response isn't" "no answer" "$(raw tag=a2 $system.1.0)"
    has "a Report isn't" "no answer" "$(raw tag=a8 $system.1.0)"
    has "another security model" "no answer" "$(raw model=1 $system.1.0)"
    has "privacy without authentication" "no answer" "$(raw flags=2 $system.1.0)"
    has "no message" "no answer" "$(raw junk=3003020103)"
    has "another version" "no answer" "$(raw version=1 $system.1.0)"
}

test_counts() { # what was told of the reports' run alone
    local line
    while read -r line; do has "$line" "$line" "$(cat "$work/agent.out")"; done << 'COUNTS'
snmpUnknownPDUHandlers: 6
snmpUnavailableContexts: 0
snmpUnknownContexts: 3
snmpInBadVersions: 1
snmpInASNParseErrs: 1
snmpUnknownSecurityModels: 1
snmpInvalidMsgs: 1
snmpSilentDrops: 0
COUNTS
}

test_clients() {
    local sha="-l authNoPriv -u sha -a SHA -A maplesyrup" begun
    if command -v perl > /dev/null && perl -MNet::SNMP -MCrypt::Rijndael -e1 2> /dev/null; then
        check "Net::SNMP at its defaults" "table: 300" "$(perl "$here/tests/bulk.pl" "$port" | tail -1)"
        check "Net::SNMP at 484 octets" "table: 300" "$(perl "$here/tests/bulk.pl" "$port" 484 | tail -1)"
    else
        echo "skipped: Net::SNMP isn't installed (apt-get install libnet-snmp-perl libcrypt-rijndael-perl)"
    fi
    if command -v php > /dev/null && php -m | grep -qx snmp; then
        check "PHP at authPriv" 'STRING: "a proved agent"' \
            "$(php -r "echo snmp3_get('$at', 'sha', 'authPriv', 'SHA', 'maplesyrup', 'AES', 'another-one', '.$system.1.0', 2000000, 0);" 2>&1)"
        check "PHP at authNoPriv" 'STRING: "a proved agent"' \
            "$(php -r "echo snmp3_get('$at', 'md', 'authNoPriv', 'MD5', 'maplesyrup', '', '', '.$system.1.0', 2000000, 0);" 2>&1)"
    else
        echo "skipped: PHP's snmp isn't installed (apt-get install php-cli php-snmp)"
    fi
    if ! command -v snmpget > /dev/null; then return; fi
    has "snmpget in an unknown context" "Bad context specified" "$(ask snmpget $sha -n other $at $system.1.0)"
    check "snmpget with another contextEngineID" "" "$(ask snmpget $sha -E 8000000001020304 $at $system.1.0 \
        | grep Timeout)"
    begun=$SECONDS
    ask snmpinform $sha -t 5 -r 0 $at '' $system.9.0 > /dev/null
    check "snmpinform gets its Report at once" 1 $((SECONDS - begun < 4))
    has "snmpget without a group" "authorizationError" "$(ask snmpget -l noAuthNoPriv -u nobody $at $system.1.0)"
    mkdir -p "$work/short"
    echo "sendMessageMaxSize 484" > "$work/short/snmp.conf"
    check "snmpbulkwalk in 484 octets" 300 "$(SNMPCONFPATH=$work/short ask snmpbulkwalk -Cr50 $sha $at $system.9 \
        | grep -c 'the row')"
    check "snmpbulkwalk" 300 "$(ask snmpbulkwalk -Cr50 $sha $at $system.9 | grep -c 'the row')"
}

# What a client of the library prints of sysDescr: one in C, one in Python, one in Rust.
asks() { # CLIENT
    case $1 in
        poll) "$programs/poll" --timeout 3 --retries 1 "$work/dispatch.toml" "$work/fake.clocks" "$port" sha 3 \
            $system.1.0 ;;
        aget) PYTHONPATH=$here/python/src python3 "$here/python/examples/aget.py" "$work/dispatch.toml" 127.0.0.1 \
            "$port" sha 3 $system.1.0 ;;
        get) "$OUT/cargo/debug/examples/get" "$work/dispatch.toml" 127.0.0.1:"$port" sha 3 $system.1.0 ;;
    esac
}

build_get() {
    if ! command -v cargo > /dev/null; then echo "skipped: a client in Rust: cargo isn't installed"; return; fi
    (cd "$here/rust" && SNMPSEC_OUT=$OUT cargo build --offline --example get --target-dir "$OUT/cargo") \
        > "$work/get.out" 2>&1
    check "the client in Rust is built" 0 $?
    clients+=(get)
}

# A client's standard output, the last line of its standard error, and its status: asked_by CLIENT
asked_by() {
    asks "$1" > "$work/fake.$1.out" 2> "$work/fake.$1.err"
    echo $? > "$work/fake.$1.status"
}

# What the clients make of a fake agent, which they ask at once: an agent that answers at a lower level, in another
# context, with another request-id; and a right one among what anybody may send.
test_fake() { # WRONG EXPECTED-STATUS ERROR CLIENT..
    local client asking=() wrong=$1 status=$2 error=$3
    shift 3
    PYTHONPATH=$here/python/src python3 "$here/tests/fake.py" "$port" "$wrong" > "$work/fake.out" 2>&1 &
    fake=$!
    pids+=("$fake")
    bound "$port"
    for client; do asked_by "$client" & asking+=($!); done
    wait "${asking[@]}"
    for client; do
        check "the status of $client with a fake agent, $wrong" "$status" "$(cat "$work/fake.$client.status")"
        check "what $client prints, $wrong" "$([ "$status" = 0 ] && echo "$system.1.0 04 66616b65")" \
            "$(cat "$work/fake.$client.out")"
        has "what $client tells, $wrong" "$error" "$(tail -1 "$work/fake.$client.err")"
    done
    kill "$fake"
    wait "$fake" 2> /dev/null
    rm -f "$work/fake.clocks"
}

if ! command -v python3 > /dev/null; then
    echo "skipped: python3 isn't installed"
else
    begin_dispatch --long-answers
    test_cut_bulks
    test_negative_numbers
    test_too_big
    end_agent
    begin_dispatch --no-amplification
    test_no_amplification
    end_agent
    begin_dispatch
    test_short_answers
    test_authorization
    test_clients
    "$programs/poll" "$work/dispatch.toml" "$work/refused.clocks" "$port" nobody 1 $system.1.0 2> "$work/poll.err"
    check "poll ends with 1 where it is refused" 1 $?
    has "and tells the error-status" "poll: authorizationError (error-status 16), error-index 0" \
        "$(cat "$work/poll.err")"
    end_agent
    begin_dispatch
    test_reports
    end_agent
    test_counts
    check "the agent says nothing wrong of all this" "" "$(cat "$work/agent.err")"
    clients=(poll aget)
    build_get
    test_fake nothing 0 "" "${clients[@]}"
    for wrong in level context id; do test_fake $wrong 1 "no answer" "${clients[@]}"; done
    test_fake status=5 1 "error-status 5" "${clients[@]}"
    has "poll names it" "poll: genErr (error-status 5), error-index 0" "$(tail -1 "$work/fake.poll.err")"
    for wrong in junk flipped echo old; do test_fake $wrong 0 "" "${clients[@]}"; done
    test_fake late 0 "" poll
    test_fake never 1 "poll: no answer; what came was refused: it is no SNMPv3 message" poll
fi
