#!/bin/sh
# Proves and builds the library, where it isn't built from these sources, and what stands in this folder, into lib/out:
# build.sh [--unproved] [CFLAGS..]
#
# With --unproved the archive is compiled without a proof (tools/unproved), and all is built into lib/out/unproved. A
# line on standard error says so. No package and no installation takes what is built so.
#
# OUT is another folder than these, CC another compiler than cc, and SNMPSEC_ARCHIVE another archive. With NO_LIBRARY
# the archive is taken as it lies there. With OVER_CI it is built over the libraries that rt ci has left. The sources
# are those that CMakeLists.txt lists. CMakeLists.txt builds what is installed; this wants a C compiler alone.
set -e
here=$(cd "$(dirname "$0")" && pwd)
make="tools/build ${OVER_CI:+--over-ci}" below=
for word do
    shift
    case $word in
        --unproved) make="tools/unproved --keep" below=/unproved ;;
        --*)
            echo "build.sh: there is no option $word; usage: build.sh [--unproved] [CFLAGS..]" >&2
            exit 2 ;;
        *) set -- "$@" "$word" ;;
    esac
done
archive=${SNMPSEC_ARCHIVE:-$here/../crates/snmp_c/out$below/libsnmp_c.a}
[ -n "$NO_LIBRARY" ] || (cd "$here/.." && $make snmp_c)
# (whatever the words are: tools/unproved leaves this name in each archive that it makes)
if grep -qs unproved_build "$archive"; then
    below=/unproved
    echo "build.sh: nothing of this build is proved; ./prove snmp_c proves it" >&2
fi
out=${OUT:-$here/out$below}
mkdir -p "$out"
cc="${CC:-cc} -std=c11 -O2 -Wall -Wextra -Werror -I$here/include"
bound="-Wl,-z,relro,-z,now"

# listed NAME: the sources of this name in CMakeLists.txt
listed() { sed -n "s/^set($1 \(.*\))\$/\1/p" "$here/CMakeLists.txt"; }

proved="-Wl,--whole-archive $archive -Wl,--no-whole-archive"
library=$proved
# with nothing wiped
plain="$proved $here/tests/plain.c"
for source in $(listed library_sources); do
    part=$out/$(basename "$source" .c).o
    $cc -fPIC -fvisibility=hidden -Wconversion "$@" -c "$here/$source" -o "$part"
    library="$library $part"
    case $source in */heap.c | */wipe.c) ;; *) plain="$plain $part" ;; esac
done
beside=
for source in $(listed example_sources); do
    part=$out/$(basename "$source" .c).o
    $cc -Wconversion "$@" -c "$here/$source" -o "$part"
    beside="$beside $part"
done
for program in agent poll listen; do
    $cc -Wconversion "$@" $bound "$here/examples/$program.c" $beside $library -o "$out/$program"
done
gate=
for source in $(listed gate_sources); do
    part=$out/gate_$(basename "$source" .c).o
    $cc -Wconversion -I"$here/examples" "$@" -c "$here/$source" -o "$part"
    gate="$gate $part"
done
$cc "$@" $bound $gate "$out/config_told.o" "$out/files.o" $library -o "$out/snmpsec-gate"
names="-Wl,-soname,libsnmpsec.so.0 -Wl,--version-script=$here/src/snmpsec.map"
$cc -shared "$@" $bound $library $names -o "$out/libsnmpsec.so.0"
# what a linker finds by -lsnmpsec
echo 'INPUT(-l:libsnmpsec.so.0)' > "$out/libsnmpsec.so"

cc="$cc -I$here/src -I$here/examples"
for test in calls manager_calls gate_calls forward_calls listener_calls bindings keys exchange many kept hostile; do
    checks="$here/tests/checks.c $out/words_of.o"
    $cc "$@" -Wl,--wrap=malloc,--wrap=realloc "$here/tests/$test.c" $checks $library -o "$out/$test"
done
parts=
for part in community lines sockets; do parts="$parts $out/gate_$part.o"; done
$cc -I"$here/gate" "$@" -Wl,--wrap=malloc,--wrap=realloc "$here/tests/gate_parts.c" $parts $checks $library \
    -o "$out/gate_parts"
$cc "$@" "$here/tests/fuzz.c" $library -o "$out/fuzz_inputs"
$cc "$@" "$here/tests/hold.c" "$out/words_of.o" $library -o "$out/hold"
$cc "$@" -pthread "$here/tests/threads.c" $library -o "$out/threads"
$cc "$@" -pthread "$here/tests/flood.c" -o "$out/flood"
$cc "$@" "$here/tests/page.c" $library "$here/tests/cost.c" -o "$out/cost"
$cc "$@" "$here/tests/page.c" $plain "$here/tests/cost.c" -o "$out/cost_plain"
$cc "$@" "$here/tests/stack.c" $plain -o "$out/stack"
$cc "$@" "$here/tests/boots.c" "$out/files.o" -o "$out/boots"
echo "built in $out"
