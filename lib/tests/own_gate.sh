# A gateway with the users of examples/agent.toml before a device of ours (device.py), for the parts gate_*.sh. None of
# it is run by itself.
gate_port=$((port + 15)) device_port=$((port + 16))
through=127.0.0.1:$gate_port beside=127.0.0.1:$device_port
own=$work/own_gate
# ifEntry, of which the users see the row 7
rows=1.3.6.1.2.1.2.2.1

# Who may see and set what.
own_access() {
    cat << CONF
[[access]]
group = "low"
prefix = ""
model = 3
level = "noAuthNoPriv"
match = "prefix"
read = "all"
[[access]]
group = "high"
prefix = ""
model = 3
level = "authNoPriv"
match = "prefix"
read = "all"
write = "all"
[[family]]
view = "all"
subtree = "1.3.6.1"
include = true
[[family]]
view = "all"
subtree = "$rows"
include = false
[[family]]
view = "all"
subtree = "$rows.0.7"
mask = "ffa0"
include = true
CONF
}

# write_own_config [GATE-LINE..]: a device with the context pdu, and one whose context is hard to print, which doesn't
# answer
write_own_config() {
    mkdir -p -m 700 "$own"
    {
        cat << CONF
[gate]
engine = "80001f8804676174652d32"
boots = "$own/boots"
listen = ["$through"]
again = 100
last = 1000
CONF
        [ $# = 0 ] || printf '%s\n' "$@"
        cat << CONF
[[device]]
context = "pdu"
address = "$beside"
community = "a community that reads"
write-community = "a community that writes"
[[device]]
context = 'a "b\c'
address = "127.0.0.1:$((port + 17))"
community = "a community that reads"
CONF
        own_access
        for user in plain md sha sha256; do
            printf '[[group]]\nmodel = 3\nname = "%s"\ngroup = "%s"\n' $user \
                "$([ $user = plain ] && echo low || echo high)"
        done
        awk '/^\[\[/ { is_user = /^\[\[user/ } is_user' "$here/examples/agent.toml"
    } > "$own/gate.toml"
}

# begin_own PROGRAM [OPTION..]
begin_own() {
    local program=$1
    shift
    "$program" "$@" "$own/gate.toml" > "$own/out" 2> "$own/err" &
    gate=$!
    pids+=("$gate")
    bound "$gate_port"
    # (signals are heard once the boots are kept)
    local tries
    for tries in {1..100}; do
        [ -n "$(ours get -u plain -l noAuthNoPriv -n pdu -t 0.3 -r 0 "$through" $system.1.0 | grep value)" ] && return
    done
    echo "the gateway doesn't answer after $tries tries"
}

end_own() {
    kill "$gate"
    wait "$gate"
}

begin_own_device() {
    : > "$own/wrong"
    PYTHONPATH=$here/python/src PYTHONDONTWRITEBYTECODE=1 python3 "$here/tests/device.py" "$device_port" "$own/wrong" \
        2> "$own/device.err" &
    device=$!
    pids+=("$device")
    bound "$device_port"
}

end_own_device() {
    { kill "$device" && wait "$device"; } 2> /dev/null
}

# asks COMMAND WORDS..: as sha256, of the device pdu or in $context
asks() {
    local command=$1 privacy=a-third-one
    shift
    ours "$command" -u sha256 -n "${context-pdu}" -t "${patience:-3}" -r 0 "$through" "$@"
}

# tells NAME PATTERN: a line of the gateway has this, at most 10 seconds later
tells() {
    local tries
    for tries in {1..100}; do
        if grep -a -q -- "$2" "$own/err"; then passed=$((passed + 1)); return; fi
        sleep 0.1
    done
    check "$1" "a line $2" "$(tail -3 "$own/err")"
}
