# Traps of the example agent, which net-snmp's snmptrapd gets at each level and with each hash. test.sh runs this.
begin_trapd() { # its configuration is in $work/trapd.conf
    rm -rf "$SNMP_PERSISTENT_DIR" "$work/trapd.log"
    mkdir -p "$SNMP_PERSISTENT_DIR"
    snmptrapd -f -On -Lf "$work/trapd.log" -C -c "$work/trapd.conf" -F '%V|%v\n' udp:127.0.0.1:$trap_port > /dev/null 2>&1 &
    trapd=$!
    pids+=("$trapd")
    bound "$trap_port"
}

end_trapd() {
    kill "$trapd"
    wait "$trapd" 2> /dev/null
}

trap_users() { # NAME HASH PRIVACY-PASSWORD of each user that can be notified
    printf '%s\n' "md MD5 syrupmaple" "sha SHA another-one" "sha256 SHA-256 a-third-one"
}

test_traps() {
    if ! command -v snmptrapd > /dev/null; then echo "skipped: net-snmp's snmptrapd isn't installed (apt-get install snmptrapd)"; return; fi
    local user hash password level
    while read -r user hash password; do
        printf 'createUser -e 0x%s %s %s maplesyrup AES %s\nauthUser log %s auth\n' $engine "$user" "$hash" "$password" "$user" > "$work/trapd.conf"
        for level in 2 3; do
            begin_trapd
            begin_agent $trap_port "$user" $level
            in_file "a trap of $user at level $level" "$work/trapd.log" "1\.3\.6\.1\.6\.3\.1\.1\.5\.1"
            end_trapd
            end_agent
        done
    done < <(trap_users)
}

test_traps
