# Captures: the log that the program prints of them, beside what tshark shows. test.sh runs this.
test_captures() {
    if [ ! -x "$program" ]; then echo "skipped: captures: the program isn't built, which ./prove does"; return; fi
    if ! command -v tshark > /dev/null; then echo "skipped: tshark isn't installed (apt-get install tshark)"; return; fi
    has "captures beside tshark" " captures as tshark shows them" "$(python3 "$here/tests/captures.py" "$program")"
}

test_captures
