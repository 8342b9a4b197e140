# What a datagram can have the agent do, and what floods of them leave to users: test.sh runs this.
export SNMPSEC_LIBRARY=$OUT/libsnmpsec.so.0 PYTHONDONTWRITEBYTECODE=1
message() { PYTHONPATH=$here/python/src python3 "$here/tests/messages.py" "$port" "$@"; }

# The agent over as many rows as a table may have: begin_full NAME-OF-ROW [OPTION..], where & is the row's number
begin_full() {
    local name=$1
    shift
    seq 4096 | sed "s/.*/$name/; s/\$/ i 1/" > "$work/full.txt"
    "$OUT/agent" "$@" "$here/examples/agent.toml" "$work/full.txt" "$engine" "$work/boots" "$port" > "$work/agent.out" \
        2> "$work/agent.err" &
    agent=$!
    pids+=("$agent")
    bound "$port"
}

spent() { awk '{ print $14 + $15 }' "/proc/$agent/stat"; } # hundredths of a second of the processor

# A GetBulkRequest ends where all its variables are at their end.
test_ends() {
    local status="status 0, index 0, context ''"
    has "a walk's end is reported once" "$status, 1 bindings 1.3.6.1.9=82:" "$(raw tag=a5 third=1000 1.3.6.1.9)"
    has "and with all variables at their end" "$status, 2 bindings" "$(raw tag=a5 third=1000 1.3.6.1.9 1.3.6.1.8)"
    has "one that isn't goes on" "$status, 4 bindings" "$(raw tag=a5 third=1000 1.3.6.1.9 1.3.6.1.2.1.1.5.0)"
    has "no variable, no repetition" "$status, 0 bindings" "$(raw tag=a5 third=1000 second=0 times=0 1.3)"
}

# Rows that the sender may not read are asked about once for a datagram.
test_hidden_rows() {
    local before kind
    begin_full '1.3.6.1.4.1.99999.2.&.0' --unauthenticated 100
    for kind in bulk columns; do
        before=$(spent)
        check "20 messages, $kind, over 4,096 hidden rows are answered" 20 "$(message $kind 20)"
        before=$(($(spent) - before))
        check "in less than half a second of the processor" 1 $((before < 50))
        echo "flood: $kind over 4,096 hidden rows: $((before / 2)) ms each"
    done
    end_agent
}

# With no look left a GetRequest is genErr; each row with a longer name than the object's takes one.
test_looks() {
    begin_full '1.3.6.1.2.1.1.9.&.1.0'
    has "4,096 rows and a variable are looked at" "status 0, index 0, context '', 1 bindings $system.9.5=80:" \
        "$(raw $system.9.5)"
    has "once for all variables of an object" \
        "status 0, index 0, context '', 2 bindings $system.9.5=80: $system.9.6=80:" "$(raw $system.9.5 $system.9.6)"
    has "no more for another object" "status 5, index 2, context '', 2 bindings" "$(raw $system.9.5 $system.5)"
    has "9,000 variables are walked through" "status 0, index 0, context '', 9000 bindings" \
        "$(raw user=sha level=2 tag=a1 times=9000 2.1)"
    end_agent
}

test_port_0() {
    begin_agent
    python3 -c 'import socket, struct, sys
datagram = bytes.fromhex(sys.argv[2])
head = struct.pack(">HHHH", 0, int(sys.argv[1]), 8 + len(datagram), 0)
raw = socket.socket(socket.AF_INET, socket.SOCK_RAW, socket.IPPROTO_UDP)
raw.sendto(head + datagram, ("127.0.0.1", 0))' \
        "$port" "$(message discovery)" 2> "$work/raw.err" \
        || echo "skipped: datagrams from port 0, which only root may send"
    message discovery 1 > /dev/null
    end_agent
    check "datagrams from port 0 write no line" "" "$(cat "$work/agent.err")"
}

# Whether users keep half of their rate or more beside a flood of 100,000 messages a second. It is counted by seconds of
# the agent's processor, in which the agent answers up to 140,000 times alone: so a hostile message may cost it as much
# as 0.7 answers. What one costs is what a turn beside the flood lacks of the best turn alone, for each hostile message
# that came. It is taken from the best of twenty turns, of those where half of the flood came, so that neither the
# machine's speed nor other work on it fails this. bench/hostile measures by the clock.
withstands() { # KIND
    "$OUT/flood" "$port" "$(message signed)" "$(message "$1")" 1.5 20 100 "$agent" > "$work/flood.out"
    awk '{ if ($1 > alone) alone = $1 }
         $3 > 0.5 * 1.5 * $1 { beside[++turns] = $2; came[turns] = $3 }
         END {
             if (!turns) { print "skipped: in no turn half of the flood came to the agent"; exit }
             least = 1000
             for (turn in beside) { cost = (alone - beside[turn]) / came[turn]; if (cost < least) least = cost }
             printf "%d answers in a second of its processor alone; a hostile message costs as much as %.2f, in the best of %d turns\n", alone, least, turns
             exit least > 0.7
         }' "$work/flood.out" > "$work/flood.told"
}

test_floods() {
    local kind
    if [ "$(nproc)" -lt 3 ]; then echo "skipped: floods, which want three processors"; return; fi
    begin_full '1.3.6.1.4.1.99999.2.&.0'
    for kind in bulk discovery forged; do
        withstands $kind
        check "users keep half of their rate beside a flood, $kind" "0" "$?"
        echo "flood: $kind: $(cat "$work/flood.told")"
    done
    end_agent
    has "what is over the budget is reported" "over the budget: " "$(grep -v ': 0$' "$work/agent.out")"
}

if ! command -v python3 > /dev/null; then
    echo "skipped: floods: python3 isn't installed"
else
    begin_agent
    test_ends
    end_agent
    test_hidden_rows
    test_looks
    test_port_0
    test_floods
fi
