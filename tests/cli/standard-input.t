A file `-` is standard input. It can be read once.

Each file that a command reads may be `-`.

  $ access="$TOP/examples/access.toml"; config="$TOP/examples/replay/config.toml"
  $ clocks="$TOP/examples/replay/begin.clocks"; capture="$TOP/examples/diagnose.pcap"
  $ snmpsec check-config - < "$access"
  user 2
  context 2
  group 2
  access 3
  family 9
  $ snmpsec check-access - 3 nagios authPriv read @ 1.3.6.1.2.1.1.5.0 < "$access"
  accessAllowed
  $ snmpsec who-sees - 1.3.6.1.2.1.1.5.0 write < "$access"
  3 ops authPriv write @
  $ snmpsec sees - 3 nagios < "$access" | head -n 1
  noAuthNoPriv read @ noAccessEntry
  $ snmpsec check-clocks - < "$clocks"
  clocks - engine 0
  $ snmpsec merge-clocks - "$clocks" < "$clocks" | cmp - "$clocks"
  $ snmpsec check-log - < "$TOP/examples/replay/captured.log"
  line 24
  $ cp "$TOP/examples/replay/captured.log" log
  $ snmpsec replay - "$clocks" log < "$config" > first
  $ snmpsec replay "$config" - log < "$clocks" | cmp - first
  $ snmpsec replay "$config" "$clocks" - < log | cmp - first
  $ snmpsec diagnose "$TOP/examples/no-answer.toml" "$capture" > first
  [1]
  $ snmpsec diagnose - "$capture" < "$TOP/examples/no-answer.toml" | cmp - first
  $ snmpsec diagnose "$TOP/examples/no-answer.toml" - < "$capture" | cmp - first
  $ snmpsec open - --from "$capture" < "$TOP/examples/no-answer.toml" | head -n 1
  datagram 1 1700000000
  $ snmpsec open - 30 < "$config"
  refused 1 NotMessage at 0
  [1]
  $ snmpsec import-snmpd - < "$TOP/examples/snmpd.conf" 2> notes | head -n 1
  # -:15
  $ head -n 1 notes
  ! -:2: other: sysLocation

What is refused is named `-`.

  $ echo x | snmpsec check-clocks -
  refused clocks - line 1
  ! snmpsec: line 1: snmp-clocks 2 is wanted
  [1]
  $ echo x | snmpsec check-log -
  refused log - line 1
  ! snmpsec: line 1: MOMENT, one blank and HEX are wanted
  [1]
  $ head -c 16777217 /dev/zero | snmpsec check-config -
  ! snmpsec: cannot read -
  [2]

Two files that are `-` are a fault of the command line. Nothing is read.

  $ twice() { snmpsec "$@" < /dev/null 2> fault; echo "$?: $(head -n 1 fault)"; }
  $ twice diagnose - -
  2: ! error: more than one file is - (standard input), which can be read once; name files for the others
  $ twice diagnose --clocks - config -
  2: ! error: more than one file is - (standard input), which can be read once; name files for the others
  $ twice diagnose --clocks - - capture
  2: ! error: more than one file is - (standard input), which can be read once; name files for the others
  $ twice open - --from -
  2: ! error: more than one file is - (standard input), which can be read once; name files for the others
  $ twice replay - - log
  2: ! error: more than one file is - (standard input), which can be read once; name files for the others
  $ twice replay - clocks -
  2: ! error: more than one file is - (standard input), which can be read once; name files for the others
  $ twice replay config - -
  2: ! error: more than one file is - (standard input), which can be read once; name files for the others
  $ twice replay --from - - clocks
  2: ! error: more than one file is - (standard input), which can be read once; name files for the others
  $ twice replay --from - config -
  2: ! error: more than one file is - (standard input), which can be read once; name files for the others
  $ twice merge-clocks - a -
  2: ! error: more than one file is - (standard input), which can be read once; name files for the others
  $ twice check-clocks - -
  2: ! error: more than one file is - (standard input), which can be read once; name files for the others
  $ twice import-snmpd - -
  2: ! error: more than one file is - (standard input), which can be read once; name files for the others

A `-` that is no file is none of them.

  $ twice show --from - -
  2: ! error: the argument '--from <FILE>' cannot be used with '[HEX]'
  $ snmpsec check-access - 3 - authPriv read - 1.3.6.1.2.1.1.5.0 < "$access"
  noSuchContext
  [1]
  $ snmpsec diagnose --user - "$TOP/examples/no-answer.toml" - < "$capture" > printed
  ! snmpsec: -: no exchange that is wanted; the users there: bob, eve, ann; the agents there: 10.0.0.5:161, [2001:db8::9]:162
  [2]
  $ head -n 1 printed
  summary
