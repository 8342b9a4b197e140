#!/bin/bash
# Runs the library from C, Rust and Python, against net-snmp's tools, and installed, on 127.0.0.1 alone: test.sh [PORT
# [PART..]]
#
# It wants a C compiler; README.md has the line that installs all else that it can use. What isn't installed is reported
# by a line that begins with `skipped:` and left out. The C is built twice, the second time with sanitizers, and those
# programs are run where they can be built. It prints what differs from what is expected, and at the end how many checks
# passed; the status is 1 if any failed. Each part is a script in tests/. Where none is named all are run in six groups,
# as many side by side as there are processors, each with 25 ports of its own from PORT (16161) on; what a group printed
# is printed when it has ended. Parts that are named run one after another, over what was built before.
#
# With NO_LIBRARY the archive is taken as it lies there. SNMPSEC_ARCHIVE is another archive, and SNMPSEC_PROGRAM another
# program, as tools/unproved compiles them; nothing is installed or packaged of an archive that isn't proved, and it is
# built over in lib/out/unproved.
here=$(cd "$(dirname "$0")" && pwd)
archive=${SNMPSEC_ARCHIVE:-$here/../crates/snmp_c/out/libsnmp_c.a}
is_proved=yes below=
if grep -qs unproved_build "$archive"; then is_proved=no below=/unproved; fi
export OUT=${OUT:-$here/out$below}
work=$(mktemp -d)
replay=$here/../examples/replay
program=${SNMPSEC_PROGRAM:-$here/../crates/snmpsec/out/snmpsec}
port=${1:-16161}
trap_port=$((port + 1)) snmpd_port=$((port + 2))
passed=0 failed=0
pids=()

export MIBS="" SNMPCONFPATH=/nonexistent SNMP_PERSISTENT_DIR=$work/persist
trap 'for p in "${pids[@]}"; do kill "$p" 2>/dev/null; done; rm -rf "$work"' EXIT
if ! command -v cc > /dev/null; then echo "skipped: no C compiler"; exit 0; fi

check() { # NAME EXPECTED FOUND
    if [ "$2" = "$3" ]; then
        passed=$((passed + 1))
    else
        failed=$((failed + 1))
        printf 'FAILED %s\n  expected: %s\n  found:    %s\n' "$1" "$2" "$3"
    fi
}

# has NAME EXPECTED FOUND: the text is somewhere in it
has() {
    if [[ "$3" == *"$2"* ]]; then
        passed=$((passed + 1))
    else
        failed=$((failed + 1))
        printf 'FAILED %s\n  expected: %s\n  found:    %s\n' "$1" "$2" "$3"
    fi
}

# listed NAME: the sources of this name in CMakeLists.txt
listed() { sed -n "s/^set($1 \(.*\))\$/\1/p" "$here/CMakeLists.txt"; }

bound() { # PORT: waits until a process has it, at most 20 seconds
    local tries
    for tries in {1..200}; do
        sleep 0.1
        grep -q ":$(printf %04X "$1") " /proc/net/udp && return
    done
    echo "port $1 isn't bound after $tries tries"
}

# comes FILE PATTERN: it is there within 20 seconds
comes() {
    local tries
    for tries in {1..200}; do
        grep -q -- "$2" "$1" && return
        sleep 0.1
    done
    return 1
}

# in_file NAME FILE PATTERN: it is there within 20 seconds
in_file() {
    if comes "$2" "$3"; then passed=$((passed + 1)); else check "$1" "$3" "$(tail -5 "$2")"; fi
}

begin_agent() { # ARGUMENTS.. behind those that are always the same
    "$programs/agent" "$here/examples/agent.toml" "$here/examples/table.txt" "$engine" "$work/boots" "$port" "$@" \
        > "$work/agent.out" 2> "$work/agent.err" &
    agent=$!
    pids+=("$agent")
    bound "$port"
}

end_agent() {
    kill "$agent"
    wait "$agent"
}

# a request by hand, which tests/raw.py describes
raw() { PYTHONPATH=$here/python/src python3 "$here/tests/raw.py" "$port" "$@" 2>&1; }

engine=80001f8804616263
at=127.0.0.1:$port
system=1.3.6.1.2.1.1

# ask TOOL USER-OPTIONS.. : a tool of net-snmp that remembers nothing
ask() {
    local tool=$1
    shift
    rm -rf "$SNMP_PERSISTENT_DIR"
    mkdir -p "$SNMP_PERSISTENT_DIR"
    "$tool" -v3 -r 0 -t 5 -On "$@" 2>&1 | grep -v '^Created directory'
}

export SNMPSEC_LIBRARY=$OUT/libsnmpsec.so.0

# ours COMMAND ARGUMENTS..: a command of the Python package; the password of privacy is in $privacy, and another
# interpreter in $python
ours() {
    local program="import sys; from snmpsec import commands; sys.argv[0] = 'snmpsec'; sys.exit(commands.$1())"
    shift
    SNMPSEC_AUTH_PASSWORD=${password:-maplesyrup} SNMPSEC_PRIV_PASSWORD=${privacy:-syrupmaple} \
        PYTHONPATH=$here/python/src "${python:-python3}" -c "$program" "$@" 2>&1
}

# Those of a line need what those before them have started or defined.
groups="calls agent budget dispatch made_tables unproved
gate gate_lines gate_files gate_busy
gate_traps gate_informs gate_clients
gate_memory memory secrets processors packages
poll traps client wrappers
flood boots words captures install"
# These judge what was compiled: what it leaves in memory, what it depends on, what it costs, and what is made of it.
of_proved=" gate_memory memory secrets processors packages flood install "

build() {
    sh "$here/build.sh" || return 1
    NO_LIBRARY=1 OUT=$sanitized sh "$here/build.sh" -g -fsanitize=address,undefined -fno-sanitize-recover=all \
        > "$work/sanitized.log" 2>&1 && return
    rm -rf "$sanitized"
    echo "skipped: the C compiler has no sanitizers"
}

# Runs the groups, as many at once as there are processors, prints what each printed, and adds up its last line.
side_by_side() {
    local parts runs=() n=0 counts
    while read -r parts; do
        while [ "$(jobs -rp | wc -l)" -ge "$(nproc)" ]; do wait -n; done
        bash "$here/test.sh" $((port + 25 * n)) $parts > "$work/group$n" 2>&1 &
        runs+=($!)
        pids+=($!)
        n=$((n + 1))
    done <<< "$groups"
    for n in "${!runs[@]}"; do
        wait "${runs[n]}"
        head -n -1 "$work/group$n"
        read -r -a counts <<< "$(tail -n 1 "$work/group$n")"
        if [[ "${counts[*]}" =~ ^[0-9]+' passed, '[0-9]+' failed'$ ]]; then
            passed=$((passed + counts[0])) failed=$((failed + counts[2]))
        else
            check "the parts $(sed -n "$((n + 1))p" <<< "$groups") come to an end" "N passed, M failed" "${counts[*]}"
        fi
    done
}

# The programs with the address and undefined behaviour sanitizers, which end at what they find.
sanitized=$OUT/sanitized
if [ $# -lt 2 ]; then
    if [ $is_proved = no ]; then echo "these are over an archive that isn't proved"; fi
    build || exit 1
    side_by_side
else
    programs=$sanitized
    [ -d "$programs" ] || programs=$OUT
    for part in "${@:2}"; do
        since=$SECONDS
        if [ "$is_proved" = no ] && [[ "$of_proved" == *" $part "* ]]; then
            echo "skipped: $part: the archive isn't proved, which ./prove snmp_c does"
            continue
        fi
        . "$here/tests/$part.sh"
        echo "$part: $((SECONDS - since)) s"
    done
fi
echo "$passed passed, $failed failed"
[ $failed = 0 ]
