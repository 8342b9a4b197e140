# The library, installed by CMake into a folder, used by the README's examples, and removed. test.sh runs this.
example() { # LANGUAGE: the first example of the README in it
    sed -n "/^\`\`\`$1\$/,/^\`\`\`\$/p" "$here/README.md" | sed '1d;/^```$/,$d'
}

# The programs of the README against what is installed in a folder: C by pkg-config and statically, C++, CMake, Rust and
# Python.
use_installed() { # NAME FOLDER [PYTHON-FOLDER]
    local lib said=$work/used.out folder=$work/used
    lib=$(dirname "$(find "$2" -name libsnmpsec.so.0 | head -1)")
    rm -rf "$folder"
    mkdir -p "$folder/rust/src"
    example c > "$folder/main.c"
    example rust > "$folder/rust/src/main.rs"
    example python > "$folder/main.py"
    local expected="discovered 80001f88046578616d706c65"
    (
        cd "$folder" || exit
        export PKG_CONFIG_PATH=$lib/pkgconfig LD_LIBRARY_PATH=$lib
        unset SNMPSEC_OUT SNMPSEC_LIBRARY
        cc -Wall -Wextra -Werror main.c $(pkg-config --cflags --libs snmpsec) -o shared && echo "shared: $(./shared)"
        cc -Wall -Wextra -Werror main.c $(pkg-config --cflags snmpsec) "$lib/libsnmpsec.a" -o static \
            && echo "static: $(LD_LIBRARY_PATH= ./static)"
    ) > "$said" 2>&1
    has "$1: C by pkg-config" "shared: $expected" "$(cat "$said")"
    has "$1: C, statically" "static: $expected" "$(cat "$said")"
    if command -v c++ > /dev/null; then
        printf '#include <snmpsec.h>\nint main() { snmpsec_agent_free(nullptr); return snmpsec_version()[0] != SNMPSEC_VERSION[0]; }\n' > "$folder/main.cc"
        (cd "$folder" && PKG_CONFIG_PATH=$lib/pkgconfig && export PKG_CONFIG_PATH && c++ main.cc \
            $(pkg-config --cflags --libs snmpsec) -o cpp && LD_LIBRARY_PATH=$lib ./cpp) > "$said" 2>&1
        check "$1: C++" 0 $?
    fi
    if command -v python3 > /dev/null; then
        check "$1: Python" "$expected" "$(cd "$folder" && unset SNMPSEC_LIBRARY && LD_LIBRARY_PATH=$lib \
            PYTHONPATH=${3:-$here/python/src} python3 main.py 2>&1)"
    fi
    if command -v cargo > /dev/null; then
        printf '[package]\nname = "used"\nversion = "0.1.0"\nedition = "2021"\n[dependencies]\nsnmpsec = { path = "%s" }\n' "$here/rust" > "$folder/rust/Cargo.toml"
        check "$1: Rust" "$expected" "$(cd "$folder/rust" && unset SNMPSEC_OUT && PKG_CONFIG_PATH=$lib/pkgconfig \
            LD_LIBRARY_PATH=$lib cargo run -q --offline --target-dir "$OUT/cargo-used" 2>&1 | tail -1)"
    fi
}

use_by_cmake() { # PREFIX
    local folder=$work/by-cmake
    mkdir -p "$folder"
    example c > "$folder/main.c"
    cat > "$folder/CMakeLists.txt" << 'LISTS'
cmake_minimum_required(VERSION 3.20)
project(used C)
find_package(snmpsec ${WANTED} REQUIRED)
add_executable(one main.c)
target_link_libraries(one snmpsec::snmpsec)
add_executable(two main.c)
target_link_libraries(two snmpsec::snmpsec_static)
LISTS
    cmake -S "$folder" -B "$folder/build" -DWANTED=0.1 -DCMAKE_PREFIX_PATH="$1" > "$work/cmake.log" 2>&1 \
        && cmake --build "$folder/build" >> "$work/cmake.log" 2>&1
    check "CMake finds it" "discovered 80001f88046578616d706c65 discovered 80001f88046578616d706c65" \
        "$("$folder/build/one") $("$folder/build/two")"
    cmake -S "$folder" -B "$folder/other" -DWANTED=0.2 -DCMAKE_PREFIX_PATH="$1" > /dev/null 2>&1
    check "and refuses another version" 1 $?
}

look_at_library() { # FILE
    local told
    told=$(objdump -p "$1")
    has "its name" "SONAME               libsnmpsec.so.0" "$told"
    check "it needs the C library alone" "libc.so.6" "$(awk '/NEEDED/ && $2 !~ /^ld-/ { print $2 }' <<< "$told" \
        | paste -sd' ')"
    check "no other names" "" "$(nm -D --defined-only "$1" | awk '{ print $3 }' | grep -v -e '^snmpsec_' \
        -e '^SNMPSEC_0')"
    has "its tables are read-only" "BIND_NOW" "$(readelf -d "$1")"
    check "no text is relocated" 0 "$(readelf -d "$1" | grep -c TEXTREL)"
    check "its stack isn't executable" RW "$(readelf -lW "$1" | awk '/GNU_STACK/ { print $7 }')"
}

test_install() {
    local build=$work/cmake prefix=$work/prefix program=$here/../crates/snmpsec/out/snmpsec words=()
    if ! command -v cmake > /dev/null || ! command -v pkg-config > /dev/null; then
        echo "skipped: the installed library: there is no cmake or no pkg-config (apt-get install cmake make pkg-config)"
        return
    fi
    local diagnose=$here/../crates/snmpsec_diagnose/out/snmpsec_diagnose
    [ -x "$program" ] && [ -x "$diagnose" ] && words=(-DSNMPSEC_PROGRAM="$program" \
        -DSNMPSEC_DIAGNOSE_PROGRAM="$diagnose")
    cmake -S "$here" -B "$build" -DSNMPSEC_ARCHIVE="$archive" "${words[@]}" -DCMAKE_BUILD_TYPE=Release \
        > "$work/cmake.log" 2>&1 && cmake --build "$build" >> "$work/cmake.log" 2>&1
    check "CMake builds" 0 $?
    echo unproved_build > "$work/unproved"
    has "CMake refuses an unproved program" "is an unproved build" \
        "$(cmake -S "$here" -B "$work/refused" -DSNMPSEC_ARCHIVE="$archive" -DSNMPSEC_PROGRAM="$work/unproved" 2>&1 \
        | paste -sd' ')"
    cmake --install "$build" --prefix "$prefix" > "$work/install.log" 2>&1
    check "CMake installs" 0 $?
    look_at_library "$(find "$prefix" -name libsnmpsec.so.0)"
    check "the archive shows no other names" "" "$(nm -g --defined-only "$(find "$prefix" -name libsnmpsec.a)" \
        | awk 'NF == 3 { print $3 }' | grep -v '^snmpsec_')"
    use_installed "installed" "$prefix"
    use_by_cmake "$prefix"
    if [ ${#words[@]} != 0 ]; then
        check "the installed program" "$("$program" version)" "$("$prefix/bin/snmpsec" version)"
        has "the installed import-snmpd's help" "snmpsec import-snmpd" \
            "$("$prefix/bin/snmpsec" --why import-snmpd --help 2>&1)"
        printf 'access g %s prefix %s none none\n' '"" usm auth' v 'b any auth' w > "$work/snmpd.conf"
        echo 'group g usm ann' >> "$work/snmpd.conf"
        has "the installed import-snmpd asks the program" "snmpd takes this row, RFC 3415 that of -:1" \
            "$("$prefix/bin/snmpsec" import-snmpd - < "$work/snmpd.conf" 2>&1)"
        has "the installed diagnose" "snmpsec diagnose" "$("$prefix/bin/snmpsec" --why diagnose --help 2>&1)"
    fi
    check "the installed agent" "$("$OUT/agent" --version)" \
        "$(LD_LIBRARY_PATH=$prefix/lib "$prefix/bin/snmpsec-agent" --version)"
    cmake --build "$build" --target uninstall > "$work/uninstall.log" 2>&1
    check "removed" 0 $?
    check "without a rest" "" "$(find "$prefix" ! -type d)"
    DESTDIR=$work/dest cmake --install "$build" --prefix /usr > "$work/install.log" 2>&1
    check "installed below another root" usr "$(ls "$work/dest")"
}

test_install
