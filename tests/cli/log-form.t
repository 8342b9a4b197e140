The program's own log, where a file of datagrams is wanted.

A log is found by its first line, so that each command prints of it what it prints of the capture.

  $ cp "$TOP/examples/replay/captured.pcap" "$TOP/examples/diagnose.pcap" .
  $ capture=captured.pcap config="$TOP/examples/replay/config.toml" clocks="$TOP/examples/replay/begin.clocks"
  $ snmpsec datagrams "$capture" > log
  $ snmpsec datagrams log | cmp - log
  $ snmpsec show --from "$capture" > shown
  $ snmpsec datagrams "$capture" | snmpsec show --from - | cmp - shown
  $ snmpsec open "$config" --from "$capture" > opened
  [1]
  $ snmpsec open "$config" --from log | cmp - opened
  $ snmpsec diagnose "$config" log | tail -n 2
    sam  answered 1, errors 0, refused 0, no answer 0
    engine 80001f8880c932472d51b8036b00000000  boots 1, time 3 at 03:51:48

A line that is none ends it, after what came before.

  $ (head -n 1 log; echo '1795405908 30f') > odd
  $ snmpsec datagrams odd | cut -c 1-40
  ! snmpsec: line 2: HEX "30f": its 3 digits are an odd number
  1795405908 303e02010330110204679d6a8d020
  refused datagrams odd line 2
  $ snmpsec diagnose --json "$config" odd | grep refused
  ! snmpsec: line 2: HEX "30f": its 3 digits are an odd number
  {"refused_datagrams":{"column":null,"file":"odd","line":2,"octet":null}}
  {"counts":false,"ending":{"kind":"no answer"},"request":{"copy_of":null,"datagram":1,"engine":null,"from":null,"level":"noAuthNoPriv","microseconds":0,"refused":null,"remark":"","retransmission_of":null,"seconds":1795405908,"time":"03:51:48.000000","to":null,"user":"\"\"","what":{"kind":"discovery"}}}
  $ printf '5 3005' | snmpsec datagrams -
  refused datagrams - line 1
  ! snmpsec: line 1: it has no line feed at its end
  [1]

Hex whose first octet is that of a message is no log. A form may be asked for.

  $ echo '30 3003' | snmpsec datagrams -
  0 303003
  $ echo '30 3003' | snmpsec datagrams --form log -
  30 3003
  $ echo '17 3003' | snmpsec datagrams -
  17 3003
  $ echo '17 3003' | snmpsec datagrams --form hex -
  0 173003
  $ echo '17 30 03' | snmpsec datagrams -
  0 173003
  $ snmpsec datagrams --form log "$capture"
  refused datagrams captured.pcap line 1
  ! snmpsec: line 1: MOMENT, one blank and HEX are wanted
  [1]
  $ snmpsec datagrams --ip --form log "$capture"
  ! snmpsec: bad word FORM
  ! snmpsec: FORM "log": unknown form; use pcap, pcapng, log, hex or dump
  [2]
  $ snmpsec datagrams --form pcapng "$capture" | cmp - log

A refused configuration is looked at before the log.

  $ snmpsec open "$capture" --from log
  refused config toml
  ! snmpsec: TOML parse error at line 1, column 1: invalid UTF-8
  [1]

A replay of the capture needs no log.

  $ snmpsec replay "$config" "$clocks" log > replayed
  $ snmpsec replay --from "$capture" "$config" "$clocks" | cmp - replayed
  $ snmpsec replay --from - "$config" "$clocks" < log | cmp - replayed
  $ snmpsec replay --clocks-only "$config" "$clocks" log > saved
  $ snmpsec replay --clocks-only --from "$capture" "$config" "$clocks" | cmp - saved
  $ snmpsec replay --from "$capture" --from-line 101 "$config" "$clocks" | head -n 1
  101 1795405908 refused 6 UnknownEngine
  $ snmpsec replay --from "$capture" --port 162 "$config" "$clocks"
  snmp-clocks 2
  ! snmpsec: passed over: another port 24
  $ head -c 900 "$capture" > cut.pcap
  $ snmpsec replay --from cut.pcap "$config" "$clocks" | tail -n 1
  ! snmpsec: cut.pcap: it is cut or malformed from octet 794 on; copy a capture after its writer has ended
  refused datagrams cut.pcap octet 794
  $ snmpsec replay --from "$capture" "$clocks" "$clocks"
  refused config toml
  ! snmpsec: TOML parse error at line 1, column 13: key with no value, expected `=`
  [1]
  $ snmpsec replay --from missing "$config" "$clocks"
  ! snmpsec: cannot read missing
  ! snmpsec: missing: there is no such file
  [2]
  $ snmpsec replay --from "$capture" "$config" "$clocks" log 2>&1 | head -n 1
  ! error: the argument '--from <FILE>' cannot be used with '[LOG]'
  $ snmpsec replay "$config" "$clocks" 2>&1 | head -n 2
  ! error: the following required arguments were not provided:
  !   <LOG>

One direction of a capture.

  $ snmpsec datagrams --from-port 161 diagnose.pcap | wc -l
  10
  $ snmpsec show --from-port 161 --from diagnose.pcap | grep '^datagram' | head -n 3
  datagram 2 1700000000
  datagram 4 1700000000
  datagram 6 1700000005
  $ snmpsec datagrams --from-port 161 log | cmp - log
  $ snmpsec datagrams --from-port 65536 log
  ! snmpsec: bad word PORT
  ! snmpsec: PORT "65536": it isn't a number from 0 to 65535; 161 is the port of agents
  [2]
