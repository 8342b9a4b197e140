# The example agent, asked by net-snmp's tools at each level and with each hash: walks, Sets, refusals and counters.
# test.sh runs this.
expected_walk() { # the seven rows, or the six below system
    cat << 'ROWS'
.1.3.6.1.2.1.1.1.0 = STRING: "a proved agent"
.1.3.6.1.2.1.1.2.0 = OID: .1.3.6.1.4.1.99999
.1.3.6.1.2.1.1.3.0 = Timeticks: (256) 0:00:02.56
.1.3.6.1.2.1.1.4.0 = STRING: "nobody"
.1.3.6.1.2.1.1.5.0 = STRING: "loopback"
.1.3.6.1.2.1.1.7.0 = INTEGER: 72
ROWS
    [ "$1" = all ] && echo '.1.3.6.1.4.1.99999.1.0 = STRING: "secret"'
}

test_levels() {
    local name options rows secret
    while read -r name rows options; do
        secret='No Such Object available on this agent at this OID'
        [ "$rows" = all ] && secret='STRING: "secret"'
        check "$name get" '.1.3.6.1.2.1.1.1.0 = STRING: "a proved agent"
.1.3.6.1.4.1.99999.1.0 = '"$secret" "$(ask snmpget $options $at $system.1.0 1.3.6.1.4.1.99999.1.0)"
        check "$name getnext" '.1.3.6.1.2.1.1.7.0 = INTEGER: 72' "$(ask snmpgetnext $options $at $system.5.0)"
        local walked
        walked=$(ask snmpwalk $options $at 1.3.6.1 | grep -v 'No more variables')
        check "$name walk" "$(expected_walk "$rows")" "$walked"
        for n in 1 10 50; do
            walked=$(ask snmpbulkwalk -Cr$n $options $at 1.3.6.1 | grep -v 'No more variables')
            check "$name bulkwalk of $n" "$(expected_walk "$rows")" "$walked"
        done
    done << 'LEVELS'
noAuthNoPriv system -l noAuthNoPriv -u plain
md5 system -l authNoPriv -u md -a MD5 -A maplesyrup
sha1 system -l authNoPriv -u sha -a SHA -A maplesyrup
sha256 system -l authNoPriv -u sha256 -a SHA-256 -A maplesyrup
md5+aes all -l authPriv -u md -a MD5 -A maplesyrup -x AES -X syrupmaple
sha1+aes all -l authPriv -u sha -a SHA -A maplesyrup -x AES -X another-one
sha256+aes all -l authPriv -u sha256 -a SHA-256 -A maplesyrup -x AES -X a-third-one
LEVELS
}

test_set() {
    local private="-l authPriv -u sha -a SHA -A maplesyrup -x AES -X another-one"
    check "set" '.1.3.6.1.2.1.1.4.0 = STRING: "somebody"' "$(ask snmpset $private $at $system.4.0 s somebody)"
    check "what was set" '.1.3.6.1.2.1.1.4.0 = STRING: "somebody"' "$(ask snmpget $private $at $system.4.0)"
    has "set of another type" "wrongType" "$(ask snmpset $private $at $system.4.0 i 4)"
    has "set of no row" "notWritable" "$(ask snmpset $private $at $system.9.0 s x)"
    has "set outside of the view" "noAccess" "$(ask snmpset $private $at 1.3.6.1.4.1.99999.1.0 s x)"
    has "set at a lower level" "authorizationError" "$(ask snmpset -l authNoPriv -u sha -a SHA -A maplesyrup $at \
        $system.4.0 s x)"
    check "set back" '.1.3.6.1.2.1.1.4.0 = STRING: "nobody"' "$(ask snmpset $private $at $system.4.0 s nobody)"
}

# The six counters after these are reported at the end: of each run the discovery counts one in counter 4.
test_refusals() {
    local sha="-l authNoPriv -u sha -a SHA -A maplesyrup"
    has "wrong password" "Authentication failure" \
        "$(ask snmpget -l authNoPriv -u md -a MD5 -A wrongwrong $at $system.1.0)"
    has "unknown user" "Unknown user name" "$(ask snmpget -l noAuthNoPriv -u nobody $at $system.1.0)"
    has "unsupported level" "Unsupported security level" \
        "$(ask snmpget -l authNoPriv -u plain -a MD5 -A maplesyrup $at $system.1.0)"
    has "wrong privacy password" "Timeout" "$(ask snmpget -l authPriv -u sha -a SHA -A maplesyrup -x AES -X wrongwrong \
        $at $system.1.0)"
    has "another engine ID" "Timeout" "$(ask snmpget $sha -e 80001f8804616299 $at $system.1.0)"
    has "a client that doesn't know the boots is corrected" "a proved agent" \
        "$(ask snmpget $sha -e $engine $at $system.1.0)"
    has "another context" "Bad context specified" "$(ask snmpget $sha -n other $at $system.1.0)"
}

test_counters() { # what was told of the refusals' run alone
    local told
    told=$(cat "$work/agent.out")
    has "counter 1" "counter 1: 1" "$told"
    has "counter 2" "counter 2: 1" "$told"
    has "counter 3" "counter 3: 1" "$told"
    has "counter 5" "counter 5: 1" "$told"
    has "counter 6" "counter 6: 0" "$told"
    has "counter 4" "counter 4: 6" "$told"
}

test_agent() {
    if ! command -v snmpget > /dev/null; then
        echo "skipped: net-snmp's snmpget isn't installed (apt-get install snmp)"
        return
    fi
    begin_agent
    test_levels
    test_set
    end_agent
    begin_agent
    test_refusals
    end_agent
    test_counters
    has "no request of these was over the budget" "over the budget: 0" "$(cat "$work/agent.out")"
    check "the agent says nothing wrong" "" "$(cat "$work/agent.err")"
}

test_agent
