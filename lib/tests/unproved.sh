# lib/build.sh --unproved: what it makes, in a folder of stand-ins, and that a package, an installation, a wheel and the
# gate refuse it. test.sh runs this.
unproved=$work/unproved
note="build.sh: nothing of this build is proved; ./prove snmp_c proves it"

# A checkout with the C of this one, whose tools/unproved leaves an archive that has the mark of an unproved one.
make_checkout() {
    local name
    mkdir -p "$unproved/lib" "$unproved/tools"
    for name in CMakeLists.txt build.sh examples gate include src tests; do ln -s "$here/$name" "$unproved/lib"; done
    cp "$archive" "$unproved/marked.a"
    if [ $is_proved = yes ]; then
        echo 'const char unproved_build[] = "unproved_build";' | cc -x c -c - -o "$unproved/marked.o"
        ar rc "$unproved/marked.a" "$unproved/marked.o"
    fi
    cat > "$unproved/tools/unproved" << 'STAND_IN'
#!/bin/sh
echo "unproved $*" >> words
[ ! -e fails ] || exit 1
mkdir -p crates/snmp_c/out/unproved
cp marked.a crates/snmp_c/out/unproved/libsnmp_c.a
STAND_IN
    chmod +x "$unproved/tools/unproved"
}

# build WORD..: builds there. The library is that of test.sh no more, nor is its folder.
build_there() { (unset OUT NO_LIBRARY OVER_CI SNMPSEC_ARCHIVE; sh "$unproved/lib/build.sh" "$@"); }

test_words() {
    local word
    for word in --unprove --unproved=yes --help --; do
        check "the option $word" "build.sh: there is no option $word; usage: build.sh [--unproved] [CFLAGS..]
2" "$(build_there --unproved -g0 "$word" 2>&1; echo $?)"
    done
    check "a wrong option makes nothing" "" "$(find "$unproved/lib/out" "$unproved/words" 2> /dev/null)"
    touch "$unproved/fails"
    check "an archive that isn't compiled" 1 "$(build_there --unproved > /dev/null 2>&1; echo $?)"
    check "makes nothing" "" "$(find "$unproved/lib/out" 2> /dev/null)"
    rm "$unproved/fails" "$unproved/words"
}

test_unproved() {
    local name made=$unproved/lib/out/unproved
    check "it builds" "built in $made, 0" "$(build_there -g0 --unproved -DNDEBUG 2> "$work/unproved.err"), $?"
    check "and says so in a line" "$note" "$(cat "$work/unproved.err")"
    check "it compiles the archive" "unproved --keep snmp_c" "$(cat "$unproved/words")"
    check "it leaves lib/out as it was" unproved "$(ls "$unproved/lib/out")"
    check "its agent" "$("$OUT/agent" --version)" "$("$made/agent" --version)"
    strip -o "$made/stripped.so" "$made/libsnmpsec.so.0"
    for name in libsnmpsec.so.0 stripped.so agent poll snmpsec-gate; do
        check "check-proved refuses $name" "$made/$name: FAILED: it is an unproved build
0 passed, 1 failed
1" "$("$here/../tools/check-proved" "$made/$name"; echo $?)"
    done
    if command -v cmake > /dev/null; then
        has "CMake refuses its archive" "is an unproved build" "$(cmake -S "$here" -B "$work/refused" \
            -DSNMPSEC_ARCHIVE="$unproved/crates/snmp_c/out/unproved/libsnmp_c.a" 2>&1 | tr -s ' \n' ' ')"
    fi
    check "no wheel is made of it" "$made/libsnmpsec.so.0 is an unproved build; ./prove makes the proved one" \
        "$(SNMPSEC_WHEEL_LIBRARY=$made/libsnmpsec.so.0 python3 -B -c 'import runpy, sys, types
name = "hatchling.builders.hooks.plugin.interface"
sys.modules[name] = types.SimpleNamespace(BuildHookInterface=object)
runpy.run_path(sys.argv[1])["Library"]().initialize("", {"force_include": {}})' "$here/python/hatch_build.py" 2>&1 \
            | sed -n 's/^ValueError: //p')"
}

make_checkout
test_words
test_unproved
