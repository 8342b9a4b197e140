The files of examples/, and what is printed of them. `tools/check-examples` compares these outputs
with them.

`access.questions` has these questions and answers.

  $ cd "$TOP/examples"
  $ snmpsec check-access access.toml 3 nagios authPriv read @ 1.3.6.1.2.1.1.5.0
  accessAllowed
  $ snmpsec check-access access.toml 3 nagios authPriv read @ 1.3.6.1.2.1.2.2.1.10.2
  accessAllowed
  $ snmpsec check-access access.toml 3 nagios authPriv read @ 1.3.6.1.2.1.2.2.1.10.3
  notInView
  [1]
  $ snmpsec check-access access.toml 3 nagios noAuthNoPriv read @ 1.3.6.1.2.1.1.5.0
  noAccessEntry
  [1]
  $ snmpsec check-access access.toml 3 nagios authPriv write @ 1.3.6.1.2.1.1.5.0
  noSuchView
  [1]
  $ snmpsec check-access access.toml 3 nagios authPriv read bridge-1 1.3.6.1.2.1.1.5.0
  accessAllowed
  $ snmpsec check-access access.toml 3 nagios authPriv read bridge-2 1.3.6.1.2.1.1.5.0
  noSuchContext
  [1]
  $ snmpsec check-access access.toml 3 ops authPriv write @ 1.3.6.1.2.1.2.2.1.7.4
  accessAllowed
  $ snmpsec check-access access.toml 3 ops authNoPriv write @ 1.3.6.1.2.1.2.2.1.7.4
  noAccessEntry
  [1]
  $ snmpsec check-access access.toml 3 ops authPriv read @ 1.3.6.1.2.1.4.21.1.1
  notInView
  [1]
  $ snmpsec check-access access.toml 3 nobody authPriv read @ 1.3.6.1.2.1.4.21.1.1
  noGroupName
  [1]

`explained.txt` explains the last question but one.

  $ snmpsec explain-access access.toml 3 ops authPriv read @ 1.3.6.1.2.1.4.21.1.1
  notInView
  context 0
  group 1 netops
  access 2
  view mib2
  family 4
  [1]

`who-sees.txt` lists who sees the name of the agent, and `sees.txt` what one user sees.

  $ snmpsec who-sees access.toml 1.3.6.1.2.1.1.5.0
  3 nagios authNoPriv read @
  3 nagios authNoPriv read bridge-1
  3 nagios authPriv read @
  3 nagios authPriv read bridge-1
  3 ops authPriv read @
  3 ops authPriv write @
  3 ops authPriv notify @
  $ snmpsec sees access.toml 3 nagios
  noAuthNoPriv read @ noAccessEntry
  noAuthNoPriv read bridge-1 noAccessEntry
  noAuthNoPriv write @ noAccessEntry
  noAuthNoPriv write bridge-1 noAccessEntry
  noAuthNoPriv notify @ noAccessEntry
  noAuthNoPriv notify bridge-1 noAccessEntry
  authNoPriv read @ + 1.3.6.1.2.1.1
  authNoPriv read @ + 1.3.6.1.2.1.2.2.1.*.2
  authNoPriv read bridge-1 + 1.3.6.1.2.1.1
  authNoPriv write @ noSuchView
  authNoPriv write bridge-1 noSuchView
  authNoPriv notify @ noSuchView
  authNoPriv notify bridge-1 noSuchView
  authPriv read @ + 1.3.6.1.2.1.1
  authPriv read @ + 1.3.6.1.2.1.2.2.1.*.2
  authPriv read bridge-1 + 1.3.6.1.2.1.1
  authPriv write @ noSuchView
  authPriv write bridge-1 noSuchView
  authPriv notify @ noSuchView
  authPriv notify bridge-1 noSuchView

The configuration is valid.

  $ snmpsec check-config access.toml
  user 2
  context 2
  group 2
  access 3
  family 9

`imported.toml` is made from `snmpd.conf`.

  $ cd ..; snmpsec import-snmpd examples/snmpd.conf | diff - examples/imported.toml; cd examples
  ! examples/snmpd.conf:2: other: sysLocation

Two stations merge their clocks, in either order.

  $ snmpsec merge-clocks station-a.clocks station-b.clocks
  snmp-clocks 2
  80001f8880a1b2c3d4 4 15 1700003600
  80001f8880e5f60718 11 86400 1700000050
  $ snmpsec merge-clocks station-b.clocks station-a.clocks
  snmp-clocks 2
  80001f8880a1b2c3d4 4 15 1700003600
  80001f8880e5f60718 11 86400 1700000050
  $ snmpsec check-clocks station-a.clocks merged.clocks
  clocks station-a.clocks engine 2
  clocks merged.clocks engine 2

A capture of `snmpget` and `snmpd` is converted into a log and replayed.

  $ cd replay; snmpsec datagrams captured.pcap | cmp - captured.log
  $ snmpsec datagrams - < captured.pcap | snmpsec replay config.toml begin.clocks /dev/stdin | cmp - printed.txt
  $ snmpsec replay config.toml begin.clocks captured.log | cmp - printed.txt
  $ snmpsec check-log captured.log
  line 24

The 16th message is opened. The 23rd has a wrong MAC.

  $ snmpsec open config.toml $(sed -n '16s/.* //p' captured.log)
  id 2129301581
  max-size 65507
  flags auth priv
  engine 80001f8880c932472d51b8036b00000000
  boots 1
  time 3
  user 626f62
  auth 40c9c8ec6f7a59be53e37eb1
  privacy 4d468aed2b6eb442
  level authPriv
  context-engine 80001f8880c932472d51b8036b00000000
  context -
  pdu a2 241263750 0 0
  binding 1.3.6.1.2.1.1.5.0 04 6578616d706c65
  $ snmpsec open config.toml $(sed -n '23s/.* //p' captured.log)
  refused 9 WrongDigest
  [1]
  $ snmpsec open config.toml --from captured.pcap | grep -A 2 -e '^datagram 16 ' -e '^datagram 23 '
  datagram 16 1795405908
  id 2129301581
  max-size 65507
  --
  datagram 23 1795405909
  refused 9 WrongDigest
  datagram 24 1795405909
