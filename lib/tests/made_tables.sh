# The example agent over made tables and views: each answer is the one of RFC 3416, for what may be seen: test.sh runs
# this.
export SNMPSEC_LIBRARY=$OUT/libsnmpsec.so.0 PYTHONDONTWRITEBYTECODE=1
said=$(PYTHONPATH=$here/python/src python3 "$here/tests/made_tables.py" "$OUT/agent" "$port" 1000 2>&1)
check "10,000 answers over made tables" "10000 passed, 0 failed" "$(tail -n 1 <<< "$said")"
grep -A 2 '^FAILED' <<< "$said" | head -n 9
