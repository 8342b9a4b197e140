#!/bin/bash
# Builds the Debian packages libsnmpsec0, libsnmpsec-dev, python3-snmpsec, snmpsec and snmpsec-gate, and a wheel with
# the library in it, into a folder: packages.sh OUT
#
# Two builds of the same sources are the same, octet for octet. Each package has a bill of materials (sbom.py).
# It proves and builds the library and the program first, where they aren't built from these sources; with NO_LIBRARY
# they are taken as they lie there. It wants debhelper, dh-python, pybuild-plugin-pyproject, python3-hatchling and
# cmake. OUT lies outside of the repository, since the packages' tree has symbolic links.
set -e
here=$(cd "$(dirname "$0")" && pwd)
repository=$(cd "$here/.." && pwd)
[ -n "$1" ] || { sed -n '2,3p' "$0"; exit 2; }
mkdir -p "$1"
out=$(cd "$1" && pwd)
[ -n "$NO_LIBRARY" ] || (cd "$repository" && tools/build snmp_c snmpsec snmpsec_diagnose)
export SNMPSEC_ARCHIVE=$repository/crates/snmp_c/out/libsnmp_c.a \
    SNMPSEC_PROGRAM=${SNMPSEC_PROGRAM:-$repository/crates/snmpsec/out/snmpsec}
export SNMPSEC_DIAGNOSE_PROGRAM=${SNMPSEC_DIAGNOSE_PROGRAM:-$repository/crates/snmpsec_diagnose/out/snmpsec_diagnose}
(cd "$repository" && tools/check-proved "$SNMPSEC_ARCHIVE" "$SNMPSEC_PROGRAM" "$SNMPSEC_DIAGNOSE_PROGRAM")
# for the bills of materials
export SNMPSEC_CRATES=$repository/crates.txt SNMPSEC_KIT
SNMPSEC_KIT=$(rt version 2> /dev/null || echo NOASSERTION)
# (Debian's Python has the tools, whichever is first on the path)
export PATH=/usr/sbin:/usr/bin:/sbin:/bin

version=$(sed -n 's/#define SNMPSEC_VERSION "\(.*\)"/\1/p' "$here/include/snmpsec.h")
tree=$out/snmpsec-$version
rm -rf "$tree"
mkdir -p "$tree/docs" "$tree/tools"
(cd "$repository" && tar c --exclude=lib/out --exclude=lib/rust/target --exclude=__pycache__ lib) | tar x -C "$tree"
chmod -R u+w "$tree"
mv "$tree/lib/debian" "$tree/debian"
cp "$repository/snmpsec" "$tree"
cp "$repository/docs/snmpsec.1" "$tree/docs"
cp "$repository/tools/snmpsec.bash" "$repository/tools/_snmpsec" "$tree/tools"
export SOURCE_DATE_EPOCH
SOURCE_DATE_EPOCH=$(dpkg-parsechangelog -l "$tree/debian/changelog" -STimestamp)
(cd "$out" && tar c --exclude=debian --sort=name --mtime="@$SOURCE_DATE_EPOCH" --owner=0 --group=0 --numeric-owner \
    "snmpsec-$version") |
    gzip -n > "$out/snmpsec_$version.orig.tar.gz"
(cd "$tree" && DEB_BUILD_OPTIONS=noautodbgsym dpkg-buildpackage -us -uc -b)

# The wheel has the library of the package; its tag follows from the greatest version of the C library's symbols.
shared=$(find "$tree/debian/libsnmpsec0" -name 'libsnmpsec.so.0.*' -type f)
libc=$(objdump -T "$shared" | grep -o 'GLIBC_[0-9.]*' | sort -V | tail -1)
libc=${libc#GLIBC_}
parts=$out/wheel
rm -rf "$parts"
mkdir -p "$parts/snmpsec"
cp -r "$tree"/lib/python/src/snmpsec/* "$parts/snmpsec"
cp "$shared" "$parts/snmpsec/libsnmpsec.so.0"
python3 "$here/sbom.py" snmpsec-wheel "$version" "$parts" "$out/snmpsec.spdx.json" snmp_c
cd "$tree/lib/python"
SNMPSEC_WHEEL_LIBRARY=$shared SNMPSEC_WHEEL_BILL=$out/snmpsec.spdx.json \
    SNMPSEC_WHEEL_PLATFORM=manylinux_${libc/./_}_$(uname -m) \
    python3 -c 'import hatchling.build, sys; print(hatchling.build.build_wheel(sys.argv[1]))' "$out"
chmod 644 "$out"/snmpsec-"$version"-*.whl
