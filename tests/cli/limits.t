The largest file, line, log and object identifier.

A file that is read whole has at most 16 MiB.

  $ head -c 16777216 /dev/zero | tr '\0' '\n' > largest
  $ snmpsec check-config largest
  user 0
  context 0
  group 0
  access 0
  family 0
  $ echo >> largest
  $ snmpsec check-config --why largest
  ! snmpsec: cannot read largest
  ! snmpsec: largest: it is over 16777216 octets
  [2]
  $ snmpsec sees largest 3 ann
  ! snmpsec: cannot read largest
  ! snmpsec: largest: it is over 16777216 octets
  [2]

So has pasted hex, from a pipe too.

  $ yes 3038 | head -c 16777217 | snmpsec datagrams --form hex -
  ! snmpsec: cannot read -
  ! snmpsec: -: it is over 16777216 octets
  [2]

A line of a log has at most 131,072 octets.

  $ printf '5 %0131070d\n' 0 > log
  $ snmpsec check-log log
  line 1
  $ printf '15 %0131070d\n' 0 > log
  $ snmpsec check-log log
  refused log log line 1
  ! snmpsec: line 1: it has over 131072 octets
  [1]

A log has at most 1,000,000 lines.

  $ yes '0 30' | head -n 1000000 > log
  $ snmpsec check-log log
  line 1000000
  $ echo '0 30' >> log
  $ snmpsec check-log log
  refused log log line 1000001
  ! snmpsec: line 1000001: a log has at most 1000000 lines: split it, and merge the clocks
  [1]

An object identifier has at most 128 numbers.

  $ numbers=$(printf '1.%.0s' $(seq 127))
  $ : > empty
  $ snmpsec who-sees empty ${numbers}1
  [1]
  $ snmpsec who-sees empty ${numbers}1.1
  ! snmpsec: bad word OID
  ! snmpsec: OID "1.1.1.1.1.1.1.1.1.1.1.1.1.1.1.1.1.1.1.1."...: it has 129 numbers, and may have 128 at most; write numbers with dots between, as 1.3.6.1.2.1.1.5.0
  [2]

Of 128 numbers the first that isn't one is reported.

  $ snmpsec who-sees empty ${numbers}x
  ! snmpsec: bad word OID
  ! snmpsec: OID "1.1.1.1.1.1.1.1.1.1.1.1.1.1.1.1.1.1.1.1."...: number 128, "x", isn't a number (`snmptranslate -On` prints those of a name); write numbers with dots between, as 1.3.6.1.2.1.1.5.0
  [2]

A read may fail.

  $ snmpsec check-log /proc/self/mem
  ! snmpsec: cannot read /proc/self/mem
  ! snmpsec: /proc/self/mem: a read failed
  [2]
  $ snmpsec check-config --why /proc/self/mem
  ! snmpsec: cannot read /proc/self/mem
  ! snmpsec: /proc/self/mem: a read failed
  [2]
