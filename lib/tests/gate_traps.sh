# Traps of devices through the gateway: net-snmp's snmptrap sends them by SNMPv2c, and its snmptrapd gets them by SNMPv3. test.sh runs this.
traps=$work/traps traps_port=$((port + 18)) traps_at=$((port + 19)) traps_to=$((port + 20))
trap_engine=80001f8804676174652d32
link_down=1.3.6.1.6.3.1.1.5.3 index=1.3.6.1.2.1.2.2.1.1.7

# user, hash, level, notify view
receivers="plain none noAuthNoPriv all
md5-auth md5 authNoPriv all
md5-priv md5 authPriv all
sha1-auth sha1 authNoPriv all
sha1-priv sha1 authPriv all
sha256-auth sha256 authNoPriv all
sha256-priv sha256 authPriv most"

# write_receiver USER LEVEL PORT [KIND]
write_receiver() { printf '[[receiver]]\naddress = "127.0.0.1:%s"\nuser = "%s"\nlevel = "%s"\nkind = "%s"\n' "$3" "$1" "$2" "${4:-trap}"; }

# The kind of receiver that each user is, or none, is in $traps_kind.
write_traps_user() { # USER HASH LEVEL VIEW
    printf '[[user]]\nname = "%s"\n' "$1"
    if [ "$2" != none ]; then printf 'auth = "%s"\nauth-password = "maplesyrup"\npriv-password = "syrupmaple"\n' "$2"; fi
    printf '[[group]]\nmodel = 3\nname = "%s"\ngroup = "%s"\n' "$1" "$1"
    printf '[[access]]\ngroup = "%s"\nprefix = "p"\nmatch = "prefix"\nmodel = 3\nlevel = "%s"\nnotify = "%s"\n' "$1" "$3" "$4"
    case ${traps_kind:-trap} in none) ;; *) write_receiver "$1" "$3" "$traps_to" "${traps_kind:-trap}" ;; esac
}

write_traps_config() { # the receivers that it has
    cat > "$traps/gate.toml" << CONF
[gate]
engine = "$trap_engine"
boots = "$traps/boots/boots"
listen = ["127.0.0.1:$traps_port"]
traps = ["127.0.0.1:$traps_at"]
[[device]]
context = "pdu"
address = "127.0.0.1:161"
community = "reads"
[[device]]
context = "pump"
address = "127.0.0.2:161"
community = "other"
[[device]]
context = "ups"
address = "127.0.0.3:161"
community = "reads"
[[family]]
view = "all"
subtree = "1.3.6.1"
include = true
[[family]]
view = "most"
subtree = "1.3.6.1"
include = true
[[family]]
view = "most"
subtree = "1.3.6.1.2.1.2"
include = false
CONF
    while read -r -a words; do write_traps_user "${words[@]}"; done <<< "$1" >> "$traps/gate.toml"
}

write_snmptrapd() { # [-e ENGINE]: Traps are of the sender's engine, and Informs of snmptrapd's own
    local user hash level
    while read -r user hash level _; do
        case $hash in
        none) echo "createUser $* $user" ;;
        md5) echo "createUser $* $user MD5 maplesyrup AES syrupmaple" ;;
        sha1) echo "createUser $* $user SHA maplesyrup AES syrupmaple" ;;
        sha256) echo "createUser $* $user SHA-256 maplesyrup AES syrupmaple" ;;
        esac
        case $level in
        noAuthNoPriv) echo "authUser log $user noauth" ;;
        authNoPriv) echo "authUser log $user auth" ;;
        authPriv) echo "authUser log $user priv" ;;
        esac
    done <<< "$receivers" > "$traps/snmptrapd.conf"
}

begin_snmptrapd() {
    mkdir -p "$traps/persist"
    SNMPCONFPATH=$traps/none SNMP_PERSISTENT_DIR=$traps/persist snmptrapd -f -C -c "$traps/snmptrapd.conf" -On -Lf "$traps/got" -F '%P, %v\n' \
        "udp:127.0.0.1:$traps_to" > /dev/null 2>&1 &
    snmptrapd=$!
    pids+=("$snmptrapd")
    bound "$traps_to"
}

begin_traps() {
    "$programs/snmpsec-gate" --counts "$traps/counts" "$traps/gate.toml" > "$traps/out" 2>> "$traps/err" &
    gate=$!
    pids+=("$gate")
    bound "$traps_at"
}

notifies() { # FROM COMMUNITY WORDS..: a device's Trap
    local from=$1 community=$2
    shift 2
    SNMP_PERSISTENT_DIR=$traps/sender snmptrap -v2c --clientaddr="$from" -c "$community" "127.0.0.1:$traps_at" "$@" > /dev/null 2>&1
}

# until_got PATTERN WORDS..: a device's Trap, again until snmptrapd gets it, at most 5 seconds: `bound` sees the gateway's own socket to it too
until_got() {
    local tries pattern=$1
    shift
    for tries in {1..50}; do
        notifies "$@"
        sleep 0.1
        grep -q -- "$pattern" "$traps/got" && return
    done
}

begin_lines() { : > "$traps/err"; : > "$traps/got"; }

test_traps_checked() {
    local out
    out=$("$programs/snmpsec-gate" --check "$traps/gate.toml" 2>&1)
    has "--check: a receiver" "user md5-priv at 127.0.0.1:$traps_to, authPriv, by Traps: notified of pdu pump" "$out"
    check "--check: each receiver" 7 "$(grep -c notified <<< "$out")"
    sed 's/^notify = .*/notify = "none"/' "$traps/gate.toml" > "$traps/none.toml"
    has "--check: a view that there isn't" "noAuthNoPriv, by Traps: notified of no device" "$("$programs/snmpsec-gate" --check "$traps/none.toml" 2>&1)"
    sed 's/127.0.0.2:161/127.0.0.1:1161/' "$traps/gate.toml" > "$traps/none.toml"
    has "--check: two devices at one address" "device pump: device pdu has its address, so" "$("$programs/snmpsec-gate" --check "$traps/none.toml" 2>&1)"
    grep -v ^traps "$traps/gate.toml" > "$traps/none.toml"
    has "--check: no traps" "no Traps are taken, since [gate] has no traps" "$("$programs/snmpsec-gate" --check "$traps/none.toml" 2>&1)"
}

test_traps_sent() {
    local user level
    begin_lines
    notifies 127.0.0.1 reads 4242 $link_down $index i 7
    while read -r user _ level view; do
        [ "$view" = all ] || continue
        in_file "$level of $user: snmptrapd gets it" "$traps/got" \
            "TRAP2, SNMP v3, user $user, context pdu, .*= Timeticks: (4242) .*\.1\.3\.6\.1\.6\.3\.1\.1\.4\.1\.0 = OID: \.$link_down.*\.$index = INTEGER: 7"
        in_file "$level of $user: a line" "$traps/err" "^device pdu notifies of $link_down: sent to user $user at 127.0.0.1:$traps_to\$"
    done <<< "$receivers"
    check "who may not see a variable gets nothing" "" "$(grep sha256-priv "$traps/got" "$traps/err")"
    notifies 127.0.0.2 other 1 $link_down
    in_file "another device: its context" "$traps/got" "user sha256-priv, context pump, "
    check "each of seven gets it" 7 "$(grep -c 'context pump' "$traps/got")"
}

test_traps_dropped() {
    begin_lines
    notifies 127.0.0.1 other 1 $link_down
    in_file "another community" "$traps/err" '^device pdu sends a Trap with another community$'
    notifies 127.0.0.3 reads 1 $link_down
    in_file "nobody may be notified" "$traps/err" "^device ups notifies of $link_down: no receiver may be notified of it\$"
    notifies 127.0.0.4 reads 1 $link_down
    in_file "an address of no device" "$traps/err" '^a Trap from 127\.0\.0\.4:[0-9]*: no device has this address$'
    SNMP_PERSISTENT_DIR=$traps/sender snmptrap -v1 -c reads "127.0.0.1:$traps_at" $link_down 127.0.0.1 2 0 1 > /dev/null 2>&1
    in_file "a Trap of SNMPv1" "$traps/err" '^device pdu sends a datagram that isn.t a message of SNMPv2c$'
    SNMP_PERSISTENT_DIR=$traps/sender snmpinform -v2c -r 0 -t 0.1 -c reads "127.0.0.1:$traps_at" 1 $link_down > /dev/null 2>&1
    in_file "an Inform" "$traps/err" '^device pdu sends a message of SNMPv2c that isn.t an SNMPv2-Trap$'
    sleep 0.3
    check "nothing of it comes out" "" "$(cat "$traps/got")"
}

# The Trap by which net-snmp's agent says that it began.
test_traps_of_snmpd() {
    if ! command -v snmpd > /dev/null; then echo "skipped: snmpd's Traps through the gateway: it isn't installed"; return; fi
    begin_lines
    printf 'agentAddress udp:127.0.0.1:%s\nrocommunity reads\ntrap2sink 127.0.0.1:%s reads\n' $((port + 21)) "$traps_at" > "$traps/snmpd.conf"
    SNMPCONFPATH=$traps/none SNMP_PERSISTENT_DIR=$traps/snmpd snmpd -f -C -c "$traps/snmpd.conf" -Lf "$traps/snmpd.log" -I -smux > /dev/null 2>&1 &
    local agent=$!
    pids+=("$agent")
    in_file "snmpd's coldStart is sent on" "$traps/err" "^device pdu notifies of 1\.3\.6\.1\.6\.3\.1\.1\.5\.1: sent to user sha256-auth at"
    in_file "and snmptrapd gets it" "$traps/got" "user sha256-auth, context pdu, .*OID: \.1\.3\.6\.1\.6\.3\.1\.1\.5\.1"
    kill "$agent"
    wait "$agent" 2> /dev/null
}

test_traps_counted() {
    rm -f "$traps/counts"
    kill -USR1 "$gate"
    for _ in {1..200}; do [ -s "$traps/counts" ] && break; sleep 0.1; done
    local sample
    for sample in 'event="waits"} 2' 'event="to_receiver"} 13' 'event="unsent"} 0' 'event="other_community"} 1' 'event="for_nobody"} 1' \
        'event="unreadable"} 1' 'event="not_trap"} 1' 'event="of_nobody"} 1'; do
        check "counts: $sample" 1 "$(grep -c -F "snmpsec_gate_traps_total{$sample" "$traps/counts")"
    done
    check "counts of a device" 1 "$(grep -c -F 'snmpsec_gate_device_total{device="pump",event="notifies"} 1' "$traps/counts")"
    check "none waits" 1 "$(grep -c '^snmpsec_gate_notifications_waiting 0$' "$traps/counts")"
}

test_traps_reloaded() {
    begin_lines
    write_traps_config "$(grep sha256 <<< "$receivers")"
    kill -HUP "$gate"
    in_file "the file is read anew" "$traps/err" 'is read anew$'
    notifies 127.0.0.2 other 1 $link_down
    in_file "after SIGHUP a new boot, which snmptrapd takes" "$traps/got" "user sha256-priv, context pump, "
    in_file "and the other receiver" "$traps/got" "user sha256-auth, context pump, "
    sleep 0.3
    check "and nobody who isn't a receiver any more" 2 "$(grep -c 'context pump' "$traps/got")"
}

test_receiver_away() {
    begin_lines
    kill "$snmptrapd"
    wait "$snmptrapd" 2> /dev/null
    for _ in 1 2 3; do notifies 127.0.0.2 other 1 $link_down; done
    in_file "a receiver is away" "$traps/err" "sent to user sha256-priv"
    begin_snmptrapd
    until_got "Timeticks: (77) " 127.0.0.2 other 77 $link_down
    in_file "it is back" "$traps/got" "Timeticks: (77) "
    kill "$gate"
    wait "$gate"
    check "the gateway ends well" 0 $?
    begin_traps
    notifies 127.0.0.2 other 78 $link_down
    in_file "a gateway that was started again" "$traps/got" "user sha256-priv, context pump, .*Timeticks: (78) "
}

if ! command -v snmptrapd > /dev/null || ! command -v snmptrap > /dev/null; then
    echo "skipped: the gateway's Traps: snmptrap or snmptrapd isn't installed"
else
    mkdir -p -m 700 "$traps/boots"
    write_traps_config "$receivers"
    write_snmptrapd -e "0x$trap_engine"
    begin_snmptrapd
    begin_traps
    test_traps_checked
    test_traps_sent
    test_traps_dropped
    test_traps_counted
    test_traps_reloaded
    test_traps_of_snmpd
    test_receiver_away
    kill "$gate" "$snmptrapd"
    wait "$gate" "$snmptrapd" 2> /dev/null
fi
