# The Python module and the Rust crate: over captured datagrams, between a manager and an agent of ours, and over UDP.
# test.sh runs this.
export SNMPSEC_LIBRARY=$OUT/libsnmpsec.so.0 PYTHONDONTWRITEBYTECODE=1

over_udp() { # WHAT PORT USER LEVEL [ENGINE]
    PYTHONPATH=$here/python/src python3 "$here/python/tests/over_udp.py" "$1" "$here/examples/agent.toml" "${@:2}" 2>&1
}

# The bounds of the time window (RFC 3414, section 3.2, step 7), and how many reports there were in all.
windows="boots +0 time +149: answered
boots +0 time +150: answered
boots +0 time +151: report of counter 2
boots -1 time +0: report of counter 2
boots +1 time +0: report of counter 2"

test_window() {
    local told counted
    begin_agent
    told=$(over_udp window $port sha 2)
    end_agent
    check "the window" "$windows" "$(head -5 <<< "$told")"
    check "counter 2 adds up" "$(grep '^counter 2' "$work/agent.out")" "$(sed -n 's/^reports of //p' <<< "$told")"
    if ! command -v snmpd > /dev/null; then return; fi
    begin_snmpd
    told=$(over_udp window $snmpd_port sha 2)
    check "snmpd's window" "$windows" "$(head -5 <<< "$told")"
    if ! command -v snmpget > /dev/null; then end_snmpd; return; fi
    counted=$(ask snmpget -Oqv -l authNoPriv -u sha -a SHA -A maplesyrup 127.0.0.1:$snmpd_port 1.3.6.1.6.3.15.1.1.2.0)
    check "snmpd's counter 2 adds up" "reports of counter 2: $counted" "$(tail -1 <<< "$told")"
    end_snmpd
}

test_many() {
    local level
    for level in 1 2 3; do
        begin_agent
        check "many requests at once at level $level" "200 answered, 0 wait" "$(over_udp many $port sha $level)"
        end_agent
        if ! command -v snmpd > /dev/null; then continue; fi
        begin_snmpd
        check "many requests at once of snmpd at level $level" "200 answered, 0 wait" \
            "$(over_udp many $snmpd_port sha $level)"
        end_snmpd
    done
}

test_notifications() {
    if ! command -v snmptrapd > /dev/null; then return; fi
    local user hash password level
    while read -r user hash password; do
        {
            # of its own engine for an Inform, and of the sender's for a trap
            echo "createUser $user $hash maplesyrup AES $password"
            echo "createUser -e 0x$engine $user $hash maplesyrup AES $password"
            echo "authUser log $user auth"
        } > "$work/trapd.conf"
        for level in 2 3; do
            begin_trapd
            check "an Inform of $user at level $level is answered" answered \
                "$(over_udp inform $trap_port "$user" $level)"
            check "a trap of $user at level $level is sent" "" "$(over_udp trap $trap_port "$user" $level $engine)"
            end_trapd
            check "and both are logged" 2 "$(grep -c 1.3.6.1.6.3.1.1.5.2 "$work/trapd.log")"
        done
    done < <(trap_users)
}

test_python() {
    if ! command -v python3 > /dev/null; then echo "skipped: python3 isn't installed"; return; fi
    local tests
    for tests in import_snmpd snmpsec gate forward aio hostile hostile_agent listener files; do
        PYTHONPATH=$here/python/src python3 "$here/python/tests/test_$tests.py" > "$work/python.out" 2>&1
        check "Python: $tests" 0 $?
        grep -E '^(FAIL|ERROR|[A-Za-z.]*Error)' "$work/python.out"
        echo "Python: $tests: $(grep '^Ran ' "$work/python.out")"
    done
    has "signatures" ", 0 differ" "$(python3 "$here/tests/signatures.py" "$OUT/libsnmpsec.so.0" 2>&1 \
        | tee "$work/signatures.out")"
    grep -v ', 0 differ' "$work/signatures.out"
    if command -v mypy > /dev/null; then
        has "the types in Python" "Success" "$(cd "$work" && mypy --strict "$here/python/src/snmpsec" 2>&1 | tail -1)"
    else
        echo "skipped: the types in Python: there is no mypy (apt-get install mypy)"
    fi
    test_window
    test_many
    test_notifications
}

test_rust() {
    if ! command -v cargo > /dev/null; then echo "skipped: cargo isn't installed"; return; fi
    (cd "$here/rust" && RUSTFLAGS="-D warnings" SNMPSEC_OUT=$OUT LD_LIBRARY_PATH=$OUT cargo test --offline \
        --target-dir "$OUT/cargo") > "$work/rust.out" 2>&1
    check "Rust" 0 $?
    grep -E '^(test .*FAILED|error|thread)' "$work/rust.out"
    echo "Rust: $(sed -n 's/^test result: ok. \([0-9]*\) passed.*/\1/p' "$work/rust.out" | paste -sd+ \
        | sed 's/$/ tests/')"
}

test_python
test_rust
