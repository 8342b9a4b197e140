# The Debian packages and the wheel: built by one command, installed, used by the README's examples, and removed.
# test.sh runs this.
missing_tools() { # the packages that packages.sh wants and that aren't there
    local name
    if ! command -v dpkg-query > /dev/null; then echo dpkg; return; fi
    for name in debhelper dh-python pybuild-plugin-pyproject python3-all python3-hatchling cmake; do
        dpkg-query -W -f '${Status}' "$name" 2> /dev/null | grep -q 'install ok installed' || echo "$name"
    done
}

# As root, in a mount of its own over the system's files, which stay as they are: in_copy SCRIPT
in_copy() {
    unshare -m bash -c '
        mount -t tmpfs none "$1" && mkdir "$1/upper" "$1/work" "$1/root" || exit 99
        mount -t overlay overlay -o "lowerdir=/,upperdir=$1/upper,workdir=$1/work" "$1/root" || exit 99
        mount --rbind /proc "$1/root/proc" && mount --rbind /dev "$1/root/dev" \
            && mount --rbind "$2" "$1/root$2" || exit 99
        exec chroot "$1/root" bash -c "$3"' - "$work/copy" "$work" "$1"
}

# Which of the system's files there are where a package may put some, but for those of dpkg and caches.
LISTED="(cd / && find usr etc lib* -xdev ! -path '*/__pycache__*' ! -name ld.so.cache | sort)"

# Of each file of the packages that the processor runs: what its linker was asked for.
look_at_flags() {
    local file told
    while read -r file; do
        told=$(readelf -hldW "$file" 2> /dev/null)
        check "$(basename "$file"): its tables are read-only, its stack isn't executable, it lies anywhere" \
            "BIND_NOW GNU_RELRO RW DYN" \
            "$(grep -o -m 1 -w BIND_NOW <<< "$told") $(grep -o -m 1 GNU_RELRO <<< "$told") $(awk \
            '/GNU_STACK/ { print $7 }' <<< "$told") $(awk '/ Type:/ { print $2 }' <<< "$told")"
    done < <(find "$1" -type f -exec sh -c 'head -c 4 "$1" | grep -q ELF && echo "$1"' - {} \;)
}

# The bill of materials of a package has each of its files with its sum.
look_at_bill() { # BILL FOLDER
    check "$(basename "$1"): each file and its sum" "" "$(python3 -c 'import hashlib, json, pathlib, sys
told = {file["fileName"][2:]: file["checksums"][1]["checksumValue"] for file in json.load(open(sys.argv[1]))["files"]}
top = pathlib.Path(sys.argv[2])
there = {str(path.relative_to(top)): hashlib.sha256(path.read_bytes()).hexdigest() for path in top.rglob("*")
         if path.is_file() and not path.is_symlink() and path.suffixes[-2:] != [".spdx", ".json"]}
print(*sorted(set(told.items()) ^ set(there.items())), sep="\n", end="")' "$1" "$2" 2>&1)"
}

look_at_packages() {
    local name
    for name in libsnmpsec0 libsnmpsec-dev python3-snmpsec snmpsec snmpsec-gate; do
        mkdir -p "$work/unpacked/$name"
        dpkg-deb -x "$work/packages/$name"_*.deb "$work/unpacked/$name"
        look_at_flags "$work/unpacked/$name"
        look_at_bill "$work/unpacked/$name/usr/share/doc/$name/$name.spdx.json" "$work/unpacked/$name"
    done
    [ -x "$work/secrets_shared" ] && judge_secrets "the package's library" \
        "$(dirname "$(find "$work/unpacked/libsnmpsec0" -name libsnmpsec.so.0)")"
}

# Two builds are the same, octet for octet, in folders of other names.
test_reproducible() {
    local file other=$work/packages-in-another-folder
    NO_LIBRARY=1 bash "$here/packages.sh" "$other" > "$work/again.log" 2>&1
    check "the packages are built again" 0 $?
    for file in "$work"/packages/*.deb "$work"/packages/*.whl "$work"/packages/*.orig.tar.gz; do
        cmp "$file" "$other/$(basename "$file")" > "$work/differs" 2>&1
        check "$(basename "$file") is the same when it is built again" "" "$(cat "$work/differs")"
        if [ -s "$work/differs" ] && command -v diffoscope > /dev/null; then
            diffoscope --text - "$file" "$other/$(basename "$file")" | head -40
        fi
    done
}

test_debian() {
    local packages=$work/packages name
    for name in libsnmpsec0 libsnmpsec-dev python3-snmpsec snmpsec snmpsec-gate; do
        check "the package $name" 1 "$(find "$packages" -maxdepth 1 -name "${name}_*.deb" | wc -l)"
    done
    check "no licence is named" 5 "$(for name in "$packages"/*.deb; do dpkg-deb --fsys-tarfile "$name" \
        | tar xO --wildcards '*/copyright' 2> /dev/null | grep -l 'names no licence yet'; done | wc -l)"
    look_at_packages
    if command -v lintian > /dev/null; then
        lintian --allow-root "$packages"/*.changes > "$work/lintian.out" 2>&1
        check "lintian's errors and warnings" "" "$(grep '^[EW]:' "$work/lintian.out")"
    else
        echo "skipped: the packages judged by lintian (apt-get install lintian)"
    fi
}

# The unit of the gateway as systemd judges it: 2.0 of exposure at most.
test_gate_unit() {
    local unit=$work/unpacked/snmpsec-gate/usr/lib/systemd/system/snmpsec-gate.service told
    if ! command -v systemd-analyze > /dev/null; then
        echo "skipped: the gateway's unit judged by systemd-analyze (apt-get install systemd)"
        return
    fi
    for unit in "$unit" "${unit%.service}@.service"; do
        told=$(systemd-analyze security --offline=true --threshold=20 --no-pager "$unit" 2>&1)
        check "systemd-analyze security of $(basename "$unit")" 0 $?
        echo "packages: $(basename "$unit"): $(grep -o 'exposure level.*: [0-9.]* [A-Z]*' <<< "$told")"
    done
}

# The commands of the Python package in a folder: commands.sh FOLDER AGENT LISTENING-PORT OWN-FOLDER
write_commands() {
    cat > "$work/commands.sh" << 'COMMANDS'
export SNMPSEC_AUTH_PASSWORD=maplesyrup SNMPSEC_PRIV_PASSWORD=a-third-one
system=1.3.6.1.2.1.1
echo "get: $("$1/snmpsec-get" -u sha256 "$2" $system.1.0 2>&1)"
echo "next: $("$1/snmpsec-next" -u sha256 "$2" $system.1 2>&1)"
echo "bulk: $("$1/snmpsec-bulk" -u sha256 -M 3 "$2" $system 2>&1 | wc -l)"
echo "walk: $("$1/snmpsec-walk" -u sha256 "$2" $system 2>&1 | wc -l)"
echo "set: $("$1/snmpsec-set" -u sha256 "$2" $system.4.0 s nobody 2>&1)"
mkdir -p -m 700 "$4"
rm -f "$4/boots" # (the file of a listener that is begun anew each time)
"$1/snmpsec-listen" -u sha256 --engine 8000000005060708 --boots "$4/boots" --count 1 "127.0.0.1:$3" \
    > "$4/listened" 2>&1 & listener=$!
for _ in 1 2 3 4 5 6 7 8 9 10; do
    sleep 0.3
    "$1/snmpsec-trap" -u sha256 --inform -t 1 -r 2 "127.0.0.1:$3" 1.3.6.1.6.3.1.1.5.1 > "$4/trapped" 2>&1 && break
done
wait $listener
echo "trap and listen: $(grep -o '^inform' "$4/listened")"
COMMANDS
}

judge_commands() { # NAME FILE: what the commands printed
    local line
    for line in 'get: .1.3.6.1.2.1.1.1.0 = STRING: "a proved agent"' \
        'next: .1.3.6.1.2.1.1.1.0 = STRING: "a proved agent"' "bulk: 3" "walk: 6" \
        'set: .1.3.6.1.2.1.1.4.0 = STRING: "nobody"' "trap and listen: inform"; do
        has "$1: snmpsec-${line%%:*}" "$line" "$(cat "$2")"
    done
}

# The gateway's package, by hand as its unit does it: its user, its sample, and what is left.
write_gate_installed() {
    cat > "$work/gate_installed.sh" << SCRIPT
port=$((port + 15))
install -d -m 755 /etc/snmpsec
cp /usr/share/doc/snmpsec-gate/examples/gate.toml /etc/snmpsec
user=root
if id snmpsec-gate > /dev/null 2>&1; then
    user=snmpsec-gate
    chown root:snmpsec-gate /etc/snmpsec/gate.toml
fi
chmod 640 /etc/snmpsec/gate.toml
install -d -m 700 -o \$user /var/lib/snmpsec-gate
snmpsec-gate --user \$user --listen 127.0.0.1:\$port /etc/snmpsec/gate.toml 2> $work/gate_installed.err & gate=\$!
for _ in 1 2 3 4 5 6 7 8 9 10; do [ -s /var/lib/snmpsec-gate/boots ] && break; sleep 0.3; done
echo "gate runs as: \$(stat -c %U /var/lib/snmpsec-gate/boots) \$(stat -c %a /var/lib/snmpsec-gate/boots) \$(cat /var/lib/snmpsec-gate/boots)"
echo "gate answers: \$(snmpsec-get -u nobody -l noAuthNoPriv -t 1 -r 2 127.0.0.1:\$port 1.3.6.1.2.1.1.1.0 2>&1)"
kill -HUP \$gate
for _ in 1 2 3 4 5 6 7 8 9 10; do grep -q 'is read anew' $work/gate_installed.err && break; sleep 0.3; done
echo "gate reads anew: \$(grep -c 'is read anew' $work/gate_installed.err)"
kill \$gate
wait \$gate
echo "gate ends: \$?"
dpkg -P snmpsec-gate > /dev/null 2>&1
echo "boots beside a configuration: \$(cat /var/lib/snmpsec-gate/boots)"
dpkg -i $work/packages/snmpsec-gate_*.deb > /dev/null 2>&1
rm -r /etc/snmpsec
SCRIPT
}

# What is tried in a copy of the system: the packages are installed, used by each language, and removed.
write_installed() {
    cat > "$work/installed.sh" << SCRIPT
cd $work/user
$LISTED > $work/before
dpkg -i $work/packages/*.deb > $work/dpkg.log 2>&1 || exit 9
unset SNMPSEC_LIBRARY SNMPSEC_OUT PYTHONPATH
PATH=/usr/sbin:/usr/bin:/sbin:/bin
cc -Wall -Wextra -Werror main.c \$(pkg-config --cflags --libs snmpsec) -o shared && echo "C: \$(./shared)"
cc main.c \$(pkg-config --cflags snmpsec) -l:libsnmpsec.a -o static && echo "static: \$(./static)"
echo "Python: \$(python3 main.py)"
echo "agent: \$(snmpsec-agent --version)"
cp -r /usr/share/doc/libsnmpsec-dev/examples examples && make -s -C examples > examples.out 2>&1 &&
echo "examples: \$(examples/agent --version) \$(examples/poll --version)"
echo "program: \$(snmpsec show 3038020103300e020101020300ffe30401040201030410300e0400020100020100040004000400301104000400a00b0201010201000201003000 | head -1)"
echo "pages: \$(man -w snmpsec snmpsec-agent snmpsec-poll snmpsec-gate 2> /dev/null | wc -l)"
echo "gate: \$(snmpsec-gate --check /usr/share/doc/snmpsec-gate/examples/gate.toml)"
sh $work/commands.sh /usr/bin $at $trap_port $work/user/listener
sh $work/gate_installed.sh
echo "completions: \$(ls /usr/share/bash-completion/completions/snmpsec* \\
    /usr/share/zsh/vendor-completions/_snmpsec* | wc -l)"
dpkg -P snmpsec-gate snmpsec python3-snmpsec libsnmpsec-dev libsnmpsec0 >> $work/dpkg.log 2>&1 || exit 9
ls -d /var/lib/snmpsec-gate 2> /dev/null
$LISTED > $work/after
SCRIPT
}

test_debian_installed() {
    mkdir -p "$work/copy" "$work/user"
    if [ "$(id -u)" != 0 ] || ! in_copy true 2> /dev/null; then
        echo "skipped: the packages installed, since only root may mount a copy of the system"
        return
    fi
    example c > "$work/user/main.c"
    example python > "$work/user/main.py"
    write_installed
    write_commands
    write_gate_installed
    begin_agent
    in_copy "bash $work/installed.sh" > "$work/installed.out" 2>&1
    check "the packages are installed and removed" 0 $?
    end_agent
    judge_commands "the packages" "$work/installed.out"
    has "the gateway runs as its user, with its boots" "gate runs as: $(command -v systemd-sysusers > /dev/null \
        && echo snmpsec-gate || echo root) 600 1" "$(cat "$work/installed.out")"
    has "it answers" "usmStatsUnknownUserNames" "$(grep '^gate answers' "$work/installed.out")"
    has "its user can read its file anew" "gate reads anew: 1" "$(cat "$work/installed.out")"
    has "it ends" "gate ends: 0" "$(cat "$work/installed.out")"
    has "its boots stay as long as a configuration does" "boots beside a configuration: 2" \
        "$(cat "$work/installed.out")"
    has "completions of both programs for both shells" "completions: 4" "$(cat "$work/installed.out")"
    local expected="discovered 80001f88046578616d706c65"
    for name in "C: $expected" "static: $expected" "Python: $expected" "agent: $("$OUT/agent" --version)" \
        "examples: $("$OUT/agent" --version) $("$OUT/poll" --version)" \
        "program: id 1" "gate: 1 devices, 1 addresses"; do
        has "the packages' ${name%%:*}" "$name" "$(cat "$work/installed.out")"
    done
    if command -v man > /dev/null; then has "the packages' manual pages" "pages: 4" "$(cat "$work/installed.out")"; fi
    check "without a rest" "" "$(diff "$work/before" "$work/after")"
    check "and without the gateway's state" "" "$(grep '^/var/lib/snmpsec-gate' "$work/installed.out")"
}

test_wheel() {
    local wheel python=/usr/bin/python3
    wheel=$(find "$work/packages" -maxdepth 1 -name 'snmpsec-*-py3-none-manylinux_*.whl')
    check "the wheel" "1 644" "$(wc -w <<< "$wheel") $(stat -c %a "$wheel")"
    command -v "$python" > /dev/null || python=python3
    if ! python3 -m venv "$work/venv" > "$work/venv.log" 2>&1; then
        echo "skipped: the wheel installed: there is no venv"
        return
    fi
    "$work/venv/bin/pip" install -q --no-index --disable-pip-version-check "$wheel" > "$work/venv.log" 2>&1
    check "is installed" 0 $?
    look_at_bill "$work/venv"/lib/python*/site-packages/snmpsec/snmpsec.spdx.json "$work/packages/wheel"
    [ -x "$work/secrets_shared" ] && judge_secrets "the wheel's library" \
        "$(dirname "$work/venv"/lib/python*/site-packages/snmpsec/libsnmpsec.so.0)"
    example python > "$work/main.py"
    check "and used" "discovered 80001f88046578616d706c65" \
        "$(unset SNMPSEC_LIBRARY PYTHONPATH; cd "$work" && "$work/venv/bin/python" main.py 2>&1)"
    write_commands
    begin_agent
    (unset SNMPSEC_LIBRARY PYTHONPATH; sh "$work/commands.sh" "$work/venv/bin" "$at" "$trap_port" \
        "$work/wheel_listener") > "$work/wheel.out" 2>&1
    end_agent
    judge_commands "the wheel" "$work/wheel.out"
    "$work/venv/bin/pip" uninstall -q -y snmpsec > "$work/venv.log" 2>&1
    check "and removed without a rest" "" "$(find "$work/venv" -path '*snmpsec*')"
}

# Against the library of the last release, which SNMPSEC_RELEASED names.
test_abi() {
    if ! git -C "$here" describe --tags --abbrev=0 > /dev/null 2>&1; then
        echo "skipped: the ABI against the last release: there is no tag yet"
        return
    fi
    if ! command -v abidiff > /dev/null; then
        echo "skipped: the ABI against the last release (apt-get install abigail-tools)"
        return
    fi
    if [ -z "$SNMPSEC_RELEASED" ]; then
        echo "skipped: the ABI against the last release: SNMPSEC_RELEASED names no library of it"
        return
    fi
    abidiff "$SNMPSEC_RELEASED" "$OUT/libsnmpsec.so.0" > "$work/abi.out" 2>&1
    check "the ABI of the last release" 0 $(($? & 12))
    cat "$work/abi.out"
}

test_packages() {
    local missing crate
    missing=$(missing_tools)
    if [ -n "$missing" ]; then
        echo "skipped: the Debian packages and the wheel: there is no $(paste -sd' ' <<< "$missing")"
        return
    fi
    for crate in snmpsec snmpsec_diagnose; do
        if [ ! -x "$here/../crates/$crate/out/$crate" ]; then
            echo "skipped: the Debian packages: $crate isn't built, which ./prove does"
            return
        fi
    done
    echo unproved_build > "$work/unproved"
    has "no package is made of an unproved program" "is an unproved build" \
        "$(NO_LIBRARY=1 SNMPSEC_PROGRAM=$work/unproved bash "$here/packages.sh" "$work/refused" 2>&1)"
    NO_LIBRARY=1 bash "$here/packages.sh" "$work/packages" > "$work/packages.log" 2>&1
    check "the packages are built" 0 $?
    test_debian
    test_gate_unit
    test_debian_installed
    test_wheel
    test_reproducible
}

test_abi
test_packages
