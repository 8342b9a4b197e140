# Other clients through the gateway, before net-snmp's snmpd: pysnmp, Net::SNMP, gosnmp, 64 at once, and a user beside junk. test.sh runs this.
. "$here/tests/own_gate.sh"

begin_own_snmpd() {
    mkdir -p "$own/snmpd"
    cat > "$own/snmpd.conf" << CONF
agentAddress udp:127.0.0.1:$device_port
rocommunity "a community that reads" 127.0.0.1
rwcommunity "a community that writes" 127.0.0.1
sysServices 72
CONF
    SNMPCONFPATH=$own/snmpd SNMP_PERSISTENT_DIR=$own/snmpd snmpd -f -C -c "$own/snmpd.conf" -Lf "$own/snmpd.log" -I -smux > /dev/null 2>&1 &
    device=$!
    pids+=("$device")
    bound "$device_port"
}

# compared NAME WORDS..: a script that compares what a client gets through the gateway with what it gets from the device
compared() {
    local name=$1
    shift
    "$@" "$gate_port" "$device_port" "a community that reads" pdu > "$own/compared" 2>&1
    check "$name: as the device itself" 0 $?
    grep -v 'compared, 0 differ' "$own/compared" | head -9
    echo "gate: $name: $(tail -1 "$own/compared")"
}

test_other_clients() {
    if /usr/bin/python3 -c 'import pysnmp.hlapi' 2> /dev/null; then compared pysnmp /usr/bin/python3 "$here/tests/gate_pysnmp.py"
    else echo "skipped: pysnmp through the gateway (apt-get install python3-pysnmp4)"; fi
    if perl -MNet::SNMP -MCrypt::Rijndael -MDigest::HMAC_MD5 -e 1 2> /dev/null; then compared Net::SNMP perl "$here/tests/gate_net_snmp.pl"
    else echo "skipped: Net::SNMP through the gateway (apt-get install libnet-snmp-perl libcrypt-rijndael-perl libcrypt-des-perl libdigest-hmac-perl)"; fi
    if command -v prometheus-snmp-exporter > /dev/null; then compared gosnmp gosnmp_on "$here/tests/gate_gosnmp.py"
    else echo "skipped: gosnmp through the gateway (apt-get install prometheus-snmp-exporter)"; fi
}

gosnmp_on() { python3 "$1" "${@:2}" $((port + 17)); }

# 64 clients, each a process of its own that begins by discovery.
test_64_clients() {
    local user="-v3 -l authPriv -u sha256 -a SHA-256 -A maplesyrup -x AES -X a-third-one -n pdu" begun
    begun=$(date +%s%N)
    seq 640 | SNMP_PERSISTENT_DIR=$own/persist xargs -P 64 -I{} sh -c "snmpget $user -On -t 5 -r 1 $through $system.5.0 $system.7.0 2>&1 | grep -c ' = '" > "$own/64"
    check "64 clients at once: each is answered" "640 2" "$(sort "$own/64" | uniq -c | awk '{ print $1, $2 }')"
    echo "gate: 640 requests of 64 clients at once, each with its discovery, in $((($(date +%s%N) - begun) / 1000000)) ms"
}

middle() { cut -d' ' -f"$1" "$own/flood" | sort -n | sed -n 5p; } # COLUMN, of nine turns

# 100,000 datagrams a second that are no message, beside a user's requests, of whom 16 are on their way.
test_junk_beside() {
    local message junk
    if [ "$(nproc)" -lt 3 ]; then echo "skipped: junk beside good requests, which wants three processors"; return; fi
    message=$(PYTHONPATH=$here/python/src:$here/tests PYTHONDONTWRITEBYTECODE=1 python3 "$here/tests/messages.py" "$gate_port" device)
    junk=$(head -c 100 /dev/urandom | od -An -v -tx1 | tr -d ' \n')
    "$OUT/flood" "$gate_port" "$message" "$junk" 100000 9 500 > "$own/flood"
    check "users are answered beside 100,000 junk datagrams a second" 1 "$(awk '{ if (!$1 || $2 < $1 / 10) few++ } END { print few < 3 }' "$own/flood")"
    echo "gate: $(middle 1) answers a second alone, $(middle 2) beside $(middle 3) junk datagrams a second that came"
    has "and after it" " = " "$(ask snmpget -l authPriv -u sha256 -a SHA-256 -A maplesyrup -x AES -X a-third-one -n pdu "$through" $system.5.0)"
}

if ! command -v snmpd > /dev/null || ! command -v snmpget > /dev/null || ! command -v python3 > /dev/null; then
    echo "skipped: other clients through the gateway: net-snmp's snmpd, snmpget or python3 isn't installed (apt-get install snmpd snmp python3)"
else
    mkdir -p -m 700 "$own"
    write_own_config
    sed -i '/^\(again\|last\) = /d' "$own/gate.toml"
    begin_own_snmpd
    : > "$own/err"
    "$OUT/snmpsec-gate" "$own/gate.toml" > "$own/out" 2>> "$own/err" & gate=$!
    pids+=("$gate")
    for _ in {1..200}; do [ -s "$own/boots" ] && break; sleep 0.1; done
    test_other_clients
    test_64_clients
    test_junk_beside
    end_own
    end_own_device
fi
