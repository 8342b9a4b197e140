# The commands of the Python package, against net-snmp's snmpd, snmptrapd, snmptrap and snmpinform. test.sh runs this.

# without what changes from one walk to the next: counters, times, the machine's sockets, memory, processes and load
still() { grep -v -e 'Counter[36]' -e Timeticks -e Gauge32 -e '^\.1\.3\.6\.1\.2\.1\.\(6\|7\|25\)\.' -e '^\.1\.3\.6\.1\.4\.1\.2021\.' -e '^\.1\.3\.6\.1\.4\.1\.8072\.1\.5\.' \
    -e '^\.1\.3\.6\.1\.6\.3\.10\.2\.1\.3\.0' -e 'No more variables'; }

# unmoved BEFORE AFTER: the lines of a walk without the names of which two walks of the device say something else
unmoved() {
    diff "$1" "$2" | sed -n 's/^[<>] \([^ ]*\) = .*/\1 = /p' | sort -u > "$work/moving"
    grep -v -F -f "$work/moving"
}

test_client_levels() {
    local user hash level options walk described=".1.3.6.1.2.1.1.1.0 = STRING: \"loopback\""
    while read -r user hash privacy; do
        for level in authNoPriv authPriv; do
            options="-u $user -a $hash -l $level 127.0.0.1:$snmpd_port"
            check "the client gets as $user at $level" "$described" "$(ours get $options $system.1.0)"
            check "and the next one" "$described" "$(ours get_next $options $system.1)"
            has "and by GetBulk" "$described" "$(ours bulk -M 3 $options $system.1)"
        done
        for walk in before ours after; do
            if [ $walk = ours ]; then ours walk -u "$user" -a "$hash" "127.0.0.1:$snmpd_port" 1.3.6.1
            else ask snmpwalk -t 20 -u "$user" -l authPriv -a "$hash" -A maplesyrup -x AES -X "$privacy" \
                "127.0.0.1:$snmpd_port" 1.3.6.1; fi | still > "$work/walked.$walk"
        done
        for walk in before ours; do
            unmoved "$work/walked.before" "$work/walked.after" < "$work/walked.$walk" > "$work/unmoved.$walk"
        done
        check "the client walks as snmpwalk does, as $user" "" "$(diff "$work/unmoved.before" "$work/unmoved.ours" | head -6)"
    done << 'USERS'
md MD5 syrupmaple
sha SHA another-one
sha256 SHA-256 a-third-one
USERS
}

test_client_refusals() {
    local options="-t 0.3 -r 1 127.0.0.1:$snmpd_port" privacy=a-third-one
    has "the client names a wrong password" "usmStatsWrongDigests" "$(password=wrongwrong ours get -u sha256 $options $system.1.0)"
    has "an unknown user" "usmStatsUnknownUserNames" "$(ours get -u nobody -l authNoPriv $options $system.1.0)"
    has "a password of privacy that may be wrong" "the privacy password" "$(privacy=wrongwrong ours get -u sha256 $options $system.1.0)"
    has "a refused Set" "noAccess" "$(ours set_variables -u sha256 $options $system.6.0 s here)"
    check "a variable that isn't there" ".$system.99.0 = No Such Object available on this agent at this OID" "$(ours get -u sha256 $options $system.99.0)"
    has "an address where nothing is" "nothing came from there" "$(ours get -u sha256 -t 0.2 -r 0 127.0.0.1:9 $system.1.0)"
    has "a password on the command line" "--insecure-passwords" "$(ours get -u sha256 -A maplesyrup $options $system.1.0)"
    check "with status 2" 2 "$(ours get -u sha256 -A maplesyrup $options $system.1.0 > /dev/null; echo $?)"
}

test_client_notifications() {
    local options="-v3 -u sha256 -l authPriv -a SHA-256 -A maplesyrup -x AES -X a-third-one 127.0.0.1:$trap_port" privacy=a-third-one
    local files="--boots $work/listen.boots --clocks $work/listen.clocks" lower=${options/authPriv/authNoPriv}
    ours listen -u sha256 --engine 8000000005060708 $files "127.0.0.1:$trap_port" > "$work/listened" &
    local listener=$!
    bound "$trap_port"
    snmptrap -e 0x8000000001020304 ${options/authPriv/noAuthNoPriv} 40 1.3.6.1.6.3.1.1.5.3 $system.5.0 s nobody
    snmptrap -e 0x8000000001020304 $lower 41 1.3.6.1.6.3.1.1.5.3 $system.5.0 s lower
    snmpinform -r 0 -t 0.5 $lower 41 1.3.6.1.6.3.1.1.5.4 > /dev/null 2>&1
    check "an Inform below the least level isn't acknowledged" 1 $?
    snmptrap -e 0x8000000001020304 $options 42 1.3.6.1.6.3.1.1.5.3 $system.5.0 s up
    snmpinform $options 43 1.3.6.1.6.3.1.1.5.4
    check "an Inform of net-snmp is acknowledged" 0 $?
    check "so is ours" "" "$(ours trap -u sha256 --inform "127.0.0.1:$trap_port" 1.3.6.1.6.3.1.1.5.1)"
    kill -USR1 "$(pgrep -P "$listener")"
    in_file "what was dropped is counted" "$work/listened" "snmpsec-listen: dropped 3: below the least level"
    kill "$(pgrep -P "$listener")"
    wait "$listener"
    check "and at the end" 2 "$(grep -c "snmpsec-listen: dropped 3: below the least level" "$work/listened")"
    check "all others are printed" "trap authPriv inform authPriv inform authPriv" \
        "$(sed -n 's/^\(trap\|inform\) .* level \([A-Za-z]*\) .*/\1 \2/p' "$work/listened" | paste -sd' ')"
    check "the trap's engine is saved" 8000000001020304 "$(sed 1d "$work/listen.clocks" | cut -d' ' -f1)"
    has "with their variables" '.1.3.6.1.2.1.1.5.0 = STRING: "up"' "$(cat "$work/listened")"
    check "the boots are counted" 1 "$(cat "$work/listen.boots")"
    printf 'createUser -e 0x8000000001020305 sha256 SHA-256 maplesyrup AES a-third-one\ncreateUser sha256 SHA-256 maplesyrup AES a-third-one\n' > "$work/trapd.conf"
    echo "authUser log sha256" >> "$work/trapd.conf"
    begin_trapd
    check "a trap to snmptrapd" "" "$(ours trap -u sha256 --engine 8000000001020305 --boots "$work/trap.boots" "127.0.0.1:$trap_port" 1.3.6.1.6.3.1.1.5.1)"
    check "an Inform to snmptrapd" "" "$(ours trap -u sha256 --inform "127.0.0.1:$trap_port" 1.3.6.1.6.3.1.1.5.2)"
    end_trapd
    check "both are logged" "1.3.6.1.6.3.1.1.5.1 1.3.6.1.6.3.1.1.5.2" "$(grep -o '1\.3\.6\.1\.6\.3\.1\.1\.5\.[12]' "$work/trapd.log" | tr '\n' ' ' | sed 's/ $//')"
}

# Names of a MIB, by snmptranslate over a MIB of ours, and by pysnmp over its own.
test_client_names() {
    local options="-u sha256 127.0.0.1:$snmpd_port" privacy=a-third-one
    mkdir -p "$work/mibs"
    cat > "$work/mibs/LOOPBACK-MIB.txt" << 'MIB'
LOOPBACK-MIB DEFINITIONS ::= BEGIN
loopbackDescribed OBJECT IDENTIFIER ::= { iso 3 6 1 2 1 1 1 }
END
MIB
    has "a name of a MIB" 'STRING: "loopback"' "$(MIBDIRS=$work/mibs MIBS=LOOPBACK-MIB ours get $options loopbackDescribed.0)"
    has "with its module" 'STRING: "loopback"' "$(MIBDIRS=$work/mibs MIBS=LOOPBACK-MIB ours get $options LOOPBACK-MIB::loopbackDescribed.0)"
    has "a name of no MIB" "knows no object of this name" "$(MIBDIRS=$work/mibs MIBS=LOOPBACK-MIB ours get $options loopbackNamed.0)"
    local python=/usr/bin/python3
    if ! "$python" -c 'import pysnmp.smi' 2> /dev/null; then echo "skipped: names by pysnmp's MIBs (apt-get install python3-pysnmp4)"; return; fi
    has "a name of pysnmp's MIBs" 'STRING: "loopback"' "$(MIBS= ours get $options sysDescr.0)"
    has "with its module, too" 'STRING: "loopback"' "$(MIBS= ours get $options SNMPv2-MIB::sysDescr.0)"
}

# the examples of the client's page, in a folder of their own
test_client_page() {
    local page=$here/../docs/python-client.md number
    begin_agent
    for number in 1 2; do
        awk -v wanted=$number '/^```python/ { n++; inside = 1; next } /^```/ { inside = 0 } inside && n == wanted' "$page" |
            sed "s/16161/$port/" > "$work/page.py"
        (cd "$work" && PYTHONPATH=$here/python/src python3 page.py > "page$number.out" 2>&1)
        check "example $number of the client's page" 0 $?
    done
    end_agent
    check "prints what the agent has" "1.3.6.1.2.1.1.1.0 b'a proved agent'" "$(head -1 "$work/page1.out")"
    check "and the notification" "ann 1.3.6.1.6.3.1.1.5.1" "$(cat "$work/page2.out")"
}

# the example in Rust, which asks the example agent, snmpd and an address where nothing is, at once
test_client_rust() {
    if ! command -v cargo > /dev/null; then echo "skipped: cargo isn't installed"; return; fi
    (cd "$here/rust" && SNMPSEC_OUT=$OUT cargo build --offline --example poll_many --target-dir "$OUT/cargo") > "$work/poll_many.out" 2>&1
    check "poll_many is built" 0 $?
    begin_agent
    LD_LIBRARY_PATH=$OUT "$OUT/cargo/debug/examples/poll_many" "$here/examples/agent.toml" sha256 3 $system.1.0 $at "127.0.0.1:$snmpd_port" 127.0.0.1:9 2>&1 |
        sort > "$work/polled_many"
    end_agent
    check "poll_many asks three devices" "$(printf '%s\n' "$at 04 612070726f766564206167656e74" "127.0.0.1:$snmpd_port 04 6c6f6f706261636b" \
        "127.0.0.1:9 doesn't answer, report None" | sort)" "$(cat "$work/polled_many")"
}

if command -v python3 > /dev/null; then test_client_page; fi
if ! command -v snmpd > /dev/null || ! command -v snmptrapd > /dev/null || ! command -v python3 > /dev/null; then
    echo "skipped: the client: net-snmp's snmpd, snmptrapd or python3 isn't installed"
else
    begin_snmpd
    test_client_levels
    test_client_refusals
    if command -v snmptranslate > /dev/null; then test_client_names; else echo "skipped: names of MIBs: snmptranslate isn't installed (apt-get install snmp)"; fi
    test_client_rust
    end_snmpd
    test_client_notifications
fi
