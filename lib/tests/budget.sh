# What the example agent spends on messages without authentication: test.sh runs this.

# told KIND: how many answers a message of this kind gets
told() {
    SNMPSEC_LIBRARY=$OUT/libsnmpsec.so.0 PYTHONPATH=$here/python/src python3 "$here/tests/messages.py" "$port" "$1" 1
}

# What is spent on a message is the processor's time: each answer here waits for longer than its budget lasts.
test_waiting_answers() {
    if ! strace -qq -o /dev/null true 2> /dev/null; then
        echo "skipped: answers that wait (apt-get install strace)"
        return
    fi
    strace -qq -o /dev/null -e trace=sendto -e inject=sendto:delay_enter=300000 "$OUT/agent" \
        "$here/examples/agent.toml" "$here/examples/table.txt" "$engine" "$work/boots" "$port" > "$work/agent.out" &
    agent=$!
    pids+=("$agent")
    bound "$port"
    has "an idle agent answers what comes after an answer that waited" "$system.1.0=04:" "$(raw $system.1.0)"
    pkill -P "$agent"
    wait "$agent"
    check "nothing is over its budget" "over the budget: 0" "$(grep 'over the budget' "$work/agent.out")"
}

# Requests without authentication that use their budget up leave discoveries theirs.
test_discoveries() {
    seq 4096 | sed 's/.*/1.3.6.1.4.1.99999.2.&.0 i 1/' > "$work/full.txt"
    "$programs/agent" --unauthenticated 1 "$here/examples/agent.toml" "$work/full.txt" "$engine" "$work/boots" "$port" \
        > "$work/agent.out" 2> "$work/agent.err" &
    agent=$!
    pids+=("$agent")
    bound "$port"
    check "a message with many columns is answered" 1 "$(told columns)"
    check "and a discovery after it" 1 "$(told discovery)"
    end_agent
}

if ! command -v python3 > /dev/null; then
    echo "skipped: the agent's budgets: python3 isn't installed"
else
    test_waiting_answers
    test_discoveries
fi
