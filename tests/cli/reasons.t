`--why`: a line of explanation after a refusal.

  $ snmpsec --why show 30:38
  ! snmpsec: bad word HEX
  ! snmpsec: HEX "30:38": character 3, ":", is no hex digit; pairs of hex digits are wanted, as 3038; --from FILE takes other forms
  [2]
  $ snmpsec show --why 303
  ! snmpsec: bad word HEX
  ! snmpsec: HEX "303": its 3 digits are an odd number; pairs of hex digits are wanted, as 3038; --from FILE takes other forms
  [2]
  $ snmpsec show 303
  ! snmpsec: bad word HEX
  [2]

A message of 58 octets was cut after 45.

  $ snmpsec show --why 3038020103300e020101020300ffe30401040201030410300e0400020100020100040004000400301104000400
  refused 1 NotMessage at 0
  ! snmpsec: the message says 58 octets, and 45 are there
  [1]
  $ snmpsec show --why 3000
  refused 1 NotMessage at 2
  ! snmpsec: another protocol on the port, or a message that was cut
  [1]
  $ snmpsec check-access --why /no/such/file 0 ann none see @ 1
  ! snmpsec: cannot read /no/such/file
  ! snmpsec: /no/such/file: there is no such file
  [2]
  $ snmpsec check-config / --why
  ! snmpsec: cannot read /
  ! snmpsec: /: it is a folder
  [2]
  $ snmpsec check-access --why /dev/null usm ann none see @ 1
  ! snmpsec: bad word MODEL
  ! snmpsec: MODEL "usm": it isn't a number from 1 to 2147483647; 3 is the user-based model
  [2]
  $ snmpsec check-access --why /dev/null 3 ann authpriv see @ 1
  ! snmpsec: bad word LEVEL
  ! snmpsec: LEVEL "authpriv": unknown level, the nearest is authPriv; use noAuthNoPriv, authNoPriv or authPriv
  [2]
  $ snmpsec check-access --why /dev/null 3 ann authPriv x @ 1
  ! snmpsec: bad word VIEW
  ! snmpsec: VIEW "x": unknown view; use read, write or notify
  [2]
  $ snmpsec check-access --why /dev/null 3 ann authPriv read @ .1.3.6
  ! snmpsec: bad word OID
  ! snmpsec: OID ".1.3.6": it begins with a dot, try "1.3.6"; write numbers with dots between, as 1.3.6.1.2.1.1.5.0
  [2]
  $ snmpsec check-access --why /dev/null 3 ann authPriv read @ 1.3..6
  ! snmpsec: bad word OID
  ! snmpsec: OID "1.3..6": number 3 is missing; write numbers with dots between, as 1.3.6.1.2.1.1.5.0
  [2]
  $ snmpsec check-access --why /dev/null 3 ann authPriv read @ sysName
  ! snmpsec: bad word OID
  ! snmpsec: OID "sysName": number 1, "sysName", isn't a number (`snmptranslate -On` prints those of a name); write numbers with dots between, as 1.3.6.1.2.1.1.5.0
  [2]
  $ snmpsec explain-access --why /dev/null 3 ann authPriv read @ 1.4294967296
  ! snmpsec: bad word OID
  ! snmpsec: OID "1.4294967296": number 2, "4294967296", is above 4294967295 or begins with 0; write numbers with dots between, as 1.3.6.1.2.1.1.5.0
  [2]

An answer needs no explanation.

  $ snmpsec check-access --why /dev/null 3 ann authPriv read @ 1.3
  noSuchContext
  [1]

Newer commands explain without `--why`.

  $ snmpsec sees /dev/null 0 ann
  ! snmpsec: bad word MODEL
  ! snmpsec: MODEL "0": it isn't a number from 1 to 2147483647; 3 is the user-based model
  [2]
  $ snmpsec who-sees /dev/null 1.3 reed
  ! snmpsec: bad word VIEW
  ! snmpsec: VIEW "reed": unknown view, the nearest is read; use read, write or notify
  [2]
  $ snmpsec datagrams --port 65536 /dev/null
  ! snmpsec: bad word PORT
  ! snmpsec: PORT "65536": it isn't a number from 0 to 65535; 161 is the port of agents
  [2]
  $ snmpsec datagrams --ip --form hex /dev/null
  ! snmpsec: bad word FORM
  ! snmpsec: FORM "hex": --ip is for dumps; use dump, or leave FORM out
  [2]
  $ snmpsec datagrams --ip --form jpeg /dev/null
  ! snmpsec: bad word FORM
  ! snmpsec: FORM "jpeg": unknown form; use pcap, pcapng, log, hex or dump
  [2]
  $ snmpsec merge-clocks --why --moment 1.5 /dev/null
  ! snmpsec: bad word MOMENT
  ! snmpsec: MOMENT "1.5": it isn't whole seconds from 0 to 18446744073709551615; write them as 1700000000
  [2]
  $ snmpsec show --from /no/such/file
  ! snmpsec: cannot read /no/such/file
  ! snmpsec: /no/such/file: there is no such file
  [2]
  $ snmpsec open / --from /dev/null
  ! snmpsec: cannot read /
  ! snmpsec: /: it is a folder
  [2]
  $ snmpsec merge-clocks /dev/null
  refused clocks /dev/null line 1
  [1]
  $ snmpsec merge-clocks --why /dev/null
  refused clocks /dev/null line 1
  ! snmpsec: line 1: snmp-clocks 2 is wanted
  [1]
  $ snmpsec check-clocks /dev/null
  refused clocks /dev/null line 1
  ! snmpsec: line 1: snmp-clocks 2 is wanted
  [1]
  $ snmpsec check-log /dev/null
  line 0
  $ snmpsec replay --why --from-line 0 /dev/null /dev/null /dev/null
  ! snmpsec: bad word N
  ! snmpsec: N "0": it isn't a number from 1 to 1000000000000000; 1 is the first line of a log
  [2]

Input from a pipe is explained too, since no file is read twice.

  $ echo '[[user]]' | snmpsec check-access --why /dev/stdin 3 ann authPriv read @ 1.3
  refused config user 0 BadKey
  ! snmpsec: user 0: name: missing, a text
  [1]
  $ echo '[[user]]' | snmpsec open /dev/stdin --from /dev/null
  refused config user 0 BadKey
  ! snmpsec: user 0: name: missing, a text
  [1]
  $ echo 'snmp-clocks 3' | snmpsec merge-clocks --why /dev/stdin
  refused clocks /dev/stdin line 1
  ! snmpsec: line 1: snmp-clocks 2 is wanted
  [1]
  $ echo 'snmp-clocks 2' > clocks
  $ echo '5 303' | snmpsec replay --why --from-line 7 /dev/null clocks /dev/stdin
  ! snmpsec: log line 7
  ! snmpsec: line 7: HEX "303": its 3 digits are an odd number
  [2]
  $ echo 'snmp-clocks 3' | snmpsec replay --why /dev/null /dev/stdin /dev/null
  refused clocks /dev/stdin line 1
  ! snmpsec: line 1: snmp-clocks 2 is wanted
  [1]
  $ snmpsec datagrams - < /
  ! snmpsec: cannot read -
  ! snmpsec: -: it is a folder
  [2]

Of a message that isn't opened, whose password is wrong. Of a name that is in no group, the nearest.

  $ snmpsec datagrams "$TOP/examples/diagnose.pcap" | cut -d ' ' -f 2 > hex
  $ snmpsec open --why "$TOP/examples/no-answer.toml" $(sed -n 9p hex)
  refused 9 WrongDigest
  ! snmpsec: wrong password or hash for user "bob"
  [1]
  $ snmpsec open --why "$TOP/examples/no-answer.toml" $(sed -n 11p hex)
  refused 7 UnknownUser
  ! snmpsec: no user "eve" in this configuration
  [1]
  $ snmpsec check-access --why "$TOP/examples/access.toml" 3 nagio authPriv read @ 1.3
  noGroupName
  ! snmpsec: no group row of model 3 has the name "nagio", the nearest is "nagios"
  [1]
  $ snmpsec explain-access --why "$TOP/examples/access.toml" 3 zoe authPriv read @ 1.3
  noGroupName
  context 0
  ! snmpsec: no group row of model 3 has the name "zoe"
  [1]
  $ snmpsec check-access "$TOP/examples/access.toml" 3 nagio authPriv read @ 1.3
  noGroupName
  [1]

A file of net-snmp isn't a configuration.

  $ cp "$TOP/examples/snmpd.conf" .
  $ snmpsec check-config snmpd.conf
  refused config toml
  ! snmpsec: TOML parse error at line 2, column 13: key with no value, expected `=`
  ! snmpsec: snmpd.conf looks like an snmpd.conf; import-snmpd makes a configuration of one
  [1]
  $ echo 'view = 5' > view.toml
  $ snmpsec check-config view.toml
  refused config top
  ! snmpsec: view: at the top stand the arrays of tables user, context, group, access and family, and nothing else
  [1]
