# The boots' file, of which no number may be told twice: starts are killed, and the file is junk, locked, or has no
# room. test.sh runs this.
boots=$OUT/boots
starts=$work/starts
mkdir -p "$starts"

begin_with() { # BOOTS: the file of a start, as a printf word
    rm -rf "$starts"/b*
    printf -- "$1" > "$starts/b"
}

# says EXPECTED-STATUS EXPECTED-ERROR WORDS..: of a start that is refused; W stands for the folder
refused() {
    local status=$1 expected=$2 told
    shift 2
    told=$("$@" 2>&1 > "$starts/told")
    check "$expected" "$status $expected" "$? ${told//$starts/W}"
    check "$expected: no number is reported" "" "$(cat "$starts/told")"
}

# A start is killed as it enters each of its system calls in turn: the next one has a number that is new.
test_killed_at_each_call() {
    local calls name after told n=0
    declare -A seen
    begin_with '41\n'
    strace -qq -o "$work/strace.log" "$boots" "$starts/b" once > /dev/null 2>&1
    calls=$(sed -n 's/^\([a-z0-9_]*\)(.*/\1/p' "$work/strace.log" | tail -n +2 | grep -v '^exit_group$')
    for name in $calls; do
        seen[$name]=$((${seen[$name]} + 1))
        begin_with '41\n'
        { strace -qq -o /dev/null -e trace="$name" -e inject="$name:signal=KILL:when=${seen[$name]}" "$boots" \
            "$starts/b" once > "$starts/told" 2>&1; } 2> /dev/null
        told=$(cat "$starts/told")
        after=$("$boots" "$starts/b" once)
        check "killed at $name ${seen[$name]}: nothing is left over" "b b.lock" \
            "$(ls "$starts" | grep '^b' | paste -sd' ')"
        if { [ "$after" = 42 ] || [ "$after" = 43 ]; } && [ "${told:-0}" -lt "$after" ]; then
            n=$((n + 1))
        else
            check "killed at $name ${seen[$name]}" "42 or 43" "$after after '$told'"
        fi
    done
    check "kills at system calls" "$(wc -w <<< "$calls")" "$n"
    check "some of them" yes "$([ "$n" -gt 20 ] && echo yes)"
    echo "boots: killed at each of $n system calls"
}

killed_at_random() { # FILE HOW-OFTEN: prints what it told, in order
    local i
    for ((i = 0; i < $2; i++)); do
        "$boots" "$1" & local pid=$!
        sleep "0.0$((RANDOM % 4))$((RANDOM % 10))"
        kill -9 $pid
        wait $pid
    done 2> /dev/null
}

test_killed_at_random() { # four files side by side
    local n told=0 pids=()
    rm -rf "$starts"/k*
    for n in 1 2 3 4; do killed_at_random "$starts/k$n" 50 > "$starts/told$n" 2> /dev/null & pids+=($!); done
    wait "${pids[@]}"
    for n in 1 2 3 4; do
        check "each number of file $n is new" "$(sort -nu "$starts/told$n")" "$(cat "$starts/told$n")"
        told=$((told + $(wc -l < "$starts/told$n")))
    done
    check "some starts got so far" yes "$([ "$told" -gt 20 ] && echo yes)"
    echo "boots: 200 starts killed at random, $told had told a number"
}

# The call fails: the start is refused, and the file has the old number or the next, whole.
test_failing_calls() {
    local name error at left why
    while read -r name error at left why; do
        begin_with '41\n'
        refused 1 "W/b: $why" strace -qq -o /dev/null -e trace="$name" -e inject="$name:error=$error:when=$at" \
            "$boots" "$starts/b" once
        check "$name fails by $error: the file" "$left" "$(cat "$starts/b")"
        check "$name fails by $error: nothing is left over" "" "$(ls "$starts" | grep new)"
    done << 'CALLS'
write ENOSPC 1 41 No space left on device
fsync EIO 1 41 Input/output error
rename EACCES 1 41 Permission denied
fsync EIO 2 42 Input/output error
CALLS
}

test_full_disk() {
    mkdir -p "$starts/full"
    if ! mount -t tmpfs -o size=16k,mode=700 none "$starts/full" 2> /dev/null; then
        echo "skipped: boots on a full disk, since only root may mount one"
        return
    fi
    printf '41\n' > "$starts/full/b"
    touch "$starts/full/b.lock"
    dd if=/dev/zero of="$starts/full/fill" bs=4096 2> /dev/null
    refused 1 "W/full/b: No space left on device" "$boots" "$starts/full/b" once
    check "a full disk: the file" 41 "$(cat "$starts/full/b")"
    rm "$starts/full/fill"
    check "with room again" 42 "$("$boots" "$starts/full/b" once)"
    umount "$starts/full"
}

test_limit() { # of a file's size: a signal, or an error where that is ignored
    begin_with '41\n'
    touch "$starts/b.lock"
    { (ulimit -f 0; exec "$boots" "$starts/b" once) > /dev/null 2>&1; } 2> /dev/null
    check "ended by the limit: the file" 41 "$(cat "$starts/b")"
    (trap '' XFSZ; ulimit -f 0; exec "$boots" "$starts/b" once) 2>&1 > /dev/null | cat > "$starts/told"
    check "beyond the limit" "$starts/b: File too large" "$(cat "$starts/told")"
    check "beyond the limit: the file" 41 "$(cat "$starts/b")"
    check "without the limit" 42 "$("$boots" "$starts/b" once)"
}

test_junk() {
    local junk
    for junk in '' 'x' '12' '12 \n' '-1\n' '2147483648\n' '99999999999\n' '1\n2\n' '\0\n' ' 1\n'; do
        begin_with "$junk"
        has "junk '$junk' is refused" "W/b: no number from 0 to 2147483647. If the greatest boots" \
            "$("$boots" "$starts/b" once 2>&1 | sed "s,$starts,W,")"
        check "junk '$junk' stays" "" "$(printf -- "$junk" | cmp - "$starts/b" 2>&1)"
    done
    begin_with ''
    rm "$starts/b"
    mkdir "$starts/b"
    refused 1 "W/b: not a regular file" "$boots" "$starts/b" once
    rmdir "$starts/b"
    mkfifo "$starts/b"
    refused 1 "W/b: not a regular file" timeout 2 "$boots" "$starts/b" once
    rm "$starts/b"
    ln -s /nonexistent/b "$starts/b"
    refused 1 "W/b: No such file or directory" "$boots" "$starts/b" once
    rm "$starts/b"
    if [ "$(id -u)" = 0 ]; then
        begin_with '41\n'
        chown 65534 "$starts/b"
        refused 1 "W/b: the file is another user's" "$boots" "$starts/b" once
        rm "$starts/b"
    fi
    refused 1 "W/b: No such file or directory" "$boots" --must-exist "$starts/b" once
    check "a first start" 1 "$("$boots" "$starts/b" once)"
    check "one that must exist" 2 "$("$boots" --must-exist "$starts/b" once)"
    refused 1 "W/none: No such file or directory" "$boots" "$starts/none/b" once
}

# A folder that others may write to: they could have the new file's name before, and keep it open.
test_shared_folder() {
    local mode
    local remedy="other users may write to the folder: chmod go-w it, or name a file in a folder that only you may write to"
    mkdir -p "$starts/shared"
    for mode in 1777 777 775 720; do
        chmod $mode "$starts/shared"
        refused 1 "W/shared: $remedy" "$boots" "$starts/shared/b" once
        check "a folder of mode $mode: nothing is made there" "" "$(ls "$starts/shared")"
    done
    check "the folder of the path is the one that counts" 1 "$(cd "$starts/shared" && chmod 755 . && "$boots" b once)"
    if [ "$(id -u)" = 0 ]; then
        chown 65534 "$starts/shared"
        refused 1 "W/shared: the folder is another user's: name a file in a folder of your own" "$boots" \
            "$starts/shared/b" once
    fi
    rm -r "$starts/shared"
}

# What stands under the names of new files: it isn't waited for, followed or written to, and what a killed start left is
# removed.
test_names_taken() {
    begin_with '41\n'
    echo theirs > "$starts/theirs"
    mkfifo "$starts/b.new"
    ln -s "$starts/theirs" "$starts/b.new.linked"
    echo 7 > "$starts/b.new.a1B2c3"
    echo mine > "$starts/b.new.other-file"
    check "names that are taken" 42 "$(timeout 5 "$boots" "$starts/b" once)"
    check "what they lead to stays" theirs "$(cat "$starts/theirs")"
    check "what was left over is gone" "b b.lock b.new b.new.other-file" "$(cd "$starts" && echo b*)"
    rm -f "$starts"/b* "$starts/theirs"
    ln -s "$starts/elsewhere" "$starts/b.lock"
    refused 1 "W/b.lock: Too many levels of symbolic links" "$boots" "$starts/b" once
    rm "$starts/b.lock"
    mkfifo "$starts/b.lock"
    check "a lock that is no file is waited for by nobody" 1 "$(timeout 5 "$boots" "$starts/b" once)"
}

test_latched() {
    begin_with '2147483646\n'
    check "the last boots" 2147483647 "$("$boots" "$starts/b" once)"
    check "are reported again" 2147483647 "$("$boots" "$starts/b" once)"
    check "and stay" 2147483647 "$(cat "$starts/b")"
}

# waits until a process has a file open
opens() { # PID FILE
    local tries
    for tries in {1..100}; do
        find "/proc/$1/fd" -lname "$2" 2> /dev/null | grep -q . && return
        sleep 0.02
    done
}

test_locked() {
    local pid next
    begin_with '41\n'
    touch "$starts/b.lock"
    chmod 644 "$starts/b" "$starts/b.lock"
    "$boots" "$starts/b" > "$starts/first" & pid=$!
    for _ in {1..50}; do [ -s "$starts/first" ] && break; sleep 0.02; done
    refused 1 "W/b: another process uses it" "$boots" "$starts/b" once
    check "the first start's number stays" "42 42" "$(cat "$starts/first" "$starts/b" | paste -sd' ')"
    check "its modes" "600 600" "$(stat -c %a "$starts/b" "$starts/b.lock" | paste -sd' ')"
    "$boots" "$starts/b" once > "$starts/next" & next=$!
    opens $next "$starts/b.lock"
    { kill -9 $pid; wait $pid $next; } 2> /dev/null
    check "when it is killed the lock is free, which the next start waits for" 43 "$(cat "$starts/next")"
    for _ in {1..50}; do "$boots" "$starts/b" once & "$boots" "$starts/b" once & wait; done > "$starts/all" 2>&1
    check "of pairs at once each has a number of its own" "$(seq 44 143)" "$(sort -n "$starts/all")"
}

# The Python package and the programs in C share a file.
test_beside_python() {
    if ! command -v python3 > /dev/null; then echo "skipped: boots of Python and C: there is no python3"; return; fi
    local program="import sys; from snmpsec.files import engine_boots
with engine_boots(sys.argv[1]) as boots: print(boots)"
    begin_with '41\n'
    for _ in {1..20}; do
        "$boots" "$starts/b" once & PYTHONPATH=$here/python/src python3 -c "$program" "$starts/b" & wait
    done > "$starts/all" 2>&1
    check "of Python and C at once each has a number of its own" "$(seq 42 81)" "$(sort -n "$starts/all")"
}

if command -v strace > /dev/null && strace -qq -o /dev/null true 2> /dev/null; then
    test_killed_at_each_call
    test_failing_calls
else
    echo "skipped: boots killed at each system call, and calls that fail: there is no strace (apt-get install strace)"
fi
test_killed_at_random
test_full_disk
test_limit
test_junk
test_shared_folder
test_names_taken
test_latched
test_locked
test_beside_python
