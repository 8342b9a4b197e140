The order in which arguments and files are checked.

  $ snmpsec version
  snmpsec 0.1.0
  $ snmpsec check-log /dev/null
  line 0
  $ snmpsec check-log /no/such/file
  ! snmpsec: cannot read /no/such/file
  ! snmpsec: /no/such/file: there is no such file
  [2]
  $ snmpsec check-clocks /dev/null
  refused clocks /dev/null line 1
  ! snmpsec: line 1: snmp-clocks 2 is wanted
  [1]
  $ snmpsec check-clocks /no/such/file
  ! snmpsec: cannot read /no/such/file
  ! snmpsec: /no/such/file: there is no such file
  [2]
  $ snmpsec check-log /
  ! snmpsec: cannot read /
  ! snmpsec: /: it is a folder
  [2]

The configuration is read before the other arguments are checked.

  $ snmpsec check-access /no/such/file 0 ann none see @ 1
  ! snmpsec: cannot read /no/such/file
  [2]
  $ snmpsec check-access /dev/null 0 ann none see @ 1
  ! snmpsec: bad word MODEL
  [2]
  $ snmpsec check-access /dev/null 3 ann noAuthNoPriv read @ 1.3
  noSuchContext
  [1]
  $ snmpsec explain-access /no/such/file 0 ann none see @ 1
  ! snmpsec: cannot read /no/such/file
  [2]
  $ snmpsec explain-access /dev/null 0 ann none see @ 1
  ! snmpsec: bad word MODEL
  [2]
  $ snmpsec explain-access /dev/null 3 ann noAuthNoPriv read @ 1.3
  noSuchContext
  [1]
  $ snmpsec who-sees /no/such/file 1.
  ! snmpsec: cannot read /no/such/file
  ! snmpsec: /no/such/file: there is no such file
  [2]
  $ snmpsec who-sees --users /dev/null 1.
  ! snmpsec: bad word OID
  ! snmpsec: OID "1.": number 2 is missing; write numbers with dots between, as 1.3.6.1.2.1.1.5.0
  [2]
  $ snmpsec who-sees /dev/null 1.3 read
  [1]
  $ snmpsec sees /no/such/file 0 ann
  ! snmpsec: cannot read /no/such/file
  ! snmpsec: /no/such/file: there is no such file
  [2]
  $ snmpsec sees /dev/null 0 ann
  ! snmpsec: bad word MODEL
  ! snmpsec: MODEL "0": it isn't a number from 1 to 2147483647; 3 is the user-based model
  [2]
  $ snmpsec sees /dev/null 3 ann
  [1]
  $ snmpsec open /no/such/file 3g
  ! snmpsec: cannot read /no/such/file
  [2]
  $ snmpsec open /dev/null 3g
  ! snmpsec: bad word HEX
  [2]
  $ snmpsec open /dev/null 30
  refused 1 NotMessage at 0
  [1]

The options are checked before a file is opened. The configuration is read before the file.

  $ snmpsec show --from /no/such/file --form x
  ! snmpsec: bad word FORM
  ! snmpsec: FORM "x": unknown form; use pcap, pcapng, log, hex or dump
  [2]
  $ snmpsec show --from /no/such/file
  ! snmpsec: cannot read /no/such/file
  ! snmpsec: /no/such/file: there is no such file
  [2]
  $ snmpsec show --from /dev/null --names
  refused datagrams /dev/null line 1 column 1
  [1]
  $ snmpsec open /no/such/config --from /no/such/file --port x
  ! snmpsec: bad word PORT
  ! snmpsec: PORT "x": it isn't a number from 0 to 65535; 161 is the port of agents
  [2]
  $ snmpsec open /no/such/config --from /no/such/file
  ! snmpsec: cannot read /no/such/config
  ! snmpsec: /no/such/config: there is no such file
  [2]
  $ snmpsec open /dev/null --from /no/such/file
  ! snmpsec: cannot read /no/such/file
  ! snmpsec: /no/such/file: there is no such file
  [2]

A folder can be opened but not read.

  $ snmpsec check-access / 3 ann noAuthNoPriv read @ 1.3
  ! snmpsec: cannot read /
  [2]
  $ snmpsec check-config /dev/null
  user 0
  context 0
  group 0
  access 0
  family 0
  $ snmpsec check-config /no/such/file
  ! snmpsec: cannot read /no/such/file
  [2]
  $ snmpsec check-config /
  ! snmpsec: cannot read /
  [2]

All files are read before the first is checked.

  $ snmpsec merge-clocks /dev/null /no/such/file
  ! snmpsec: cannot read /no/such/file
  [2]
  $ snmpsec merge-clocks /dev/null
  refused clocks /dev/null line 1
  [1]
  $ snmpsec merge-clocks --moment 18446744073709551615 /dev/null
  refused clocks /dev/null line 1
  [1]
  $ snmpsec merge-clocks --moment 0 /no/such/file
  ! snmpsec: cannot read /no/such/file
  [2]

The number of the first line is checked before a file is opened. It is from 1 to 10^15.

  $ snmpsec replay --from-line 0 /no/such/file /dev/null /dev/null
  ! snmpsec: bad word N
  [2]
  $ snmpsec replay --from-line 1000000000000001 /no/such/file /dev/null /dev/null
  ! snmpsec: bad word N
  [2]
  $ snmpsec replay --clocks-only --from-line 1000000000000000 /dev/null /dev/null /dev/null
  refused clocks /dev/null line 1
  [1]

So is the timestamp. It isn't a decimal, has a sign, a leading zero, a point or another character,
is empty, or is too large.

  $ snmpsec merge-clocks --moment x /no/such/file
  ! snmpsec: bad word MOMENT
  [2]
  $ snmpsec merge-clocks --moment +7 /no/such/file
  ! snmpsec: bad word MOMENT
  [2]
  $ snmpsec merge-clocks --moment -7 /no/such/file
  ! snmpsec: bad word MOMENT
  [2]
  $ snmpsec merge-clocks --moment 07 /no/such/file
  ! snmpsec: bad word MOMENT
  [2]
  $ snmpsec merge-clocks --moment 00 /no/such/file
  ! snmpsec: bad word MOMENT
  [2]
  $ snmpsec merge-clocks --moment 7.5 /no/such/file
  ! snmpsec: bad word MOMENT
  [2]
  $ snmpsec merge-clocks --moment 7s /no/such/file
  ! snmpsec: bad word MOMENT
  [2]
  $ snmpsec merge-clocks --moment 0x7 /no/such/file
  ! snmpsec: bad word MOMENT
  [2]
  $ snmpsec merge-clocks --moment '' /no/such/file
  ! snmpsec: bad word MOMENT
  [2]
  $ snmpsec merge-clocks --moment 18446744073709551616 /no/such/file
  ! snmpsec: bad word MOMENT
  [2]
  $ snmpsec merge-clocks --moment 100000000000000000000 /no/such/file
  ! snmpsec: bad word MOMENT
  [2]
  $ snmpsec merge-clocks /no/such/file --moment 1e3
  ! snmpsec: bad word MOMENT
  [2]

The configuration and the clocks are read, and the log is opened, before any of them is checked.

  $ snmpsec replay /no/such/config /no/such/clocks /no/such/log
  ! snmpsec: cannot read /no/such/config
  [2]
  $ snmpsec replay /dev/null /no/such/clocks /no/such/log
  ! snmpsec: cannot read /no/such/clocks
  [2]
  $ snmpsec replay /dev/null /dev/null /no/such/log
  ! snmpsec: cannot read /no/such/log
  [2]
  $ snmpsec replay / /dev/null /dev/null
  ! snmpsec: cannot read /
  [2]
  $ snmpsec replay /dev/null / /dev/null
  ! snmpsec: cannot read /
  [2]

A folder as a log is opened, but the clocks are checked before it is read.

  $ snmpsec replay /dev/null /dev/null /
  refused clocks /dev/null line 1
  [1]
  $ snmpsec replay --moment 18446744073709551615 /dev/null /dev/null /dev/null
  refused clocks /dev/null line 1
  [1]
  $ snmpsec replay --moment 07 /no/such/config /dev/null /dev/null
  ! snmpsec: bad word MOMENT
  [2]
  $ snmpsec replay --moment -1 /no/such/config /dev/null /dev/null
  ! snmpsec: bad word MOMENT
  [2]
  $ snmpsec replay --moment 18446744073709551616 /no/such/config /dev/null /dev/null
  ! snmpsec: bad word MOMENT
  [2]
  $ snmpsec replay /no/such/config /dev/null /dev/null --moment now
  ! snmpsec: bad word MOMENT
  [2]

The ports are checked before the file is opened.

  $ snmpsec datagrams --port 161 --port 65536 /no/such/file
  ! snmpsec: bad word PORT
  ! snmpsec: PORT "65536": it isn't a number from 0 to 65535; 161 is the port of agents
  [2]
  $ snmpsec datagrams --port -1 /no/such/file
  ! snmpsec: bad word PORT
  ! snmpsec: PORT "-1": it isn't a number from 0 to 65535; 161 is the port of agents
  [2]
  $ snmpsec datagrams --port 0 /no/such/file
  ! snmpsec: cannot read /no/such/file
  ! snmpsec: /no/such/file: there is no such file
  [2]
  $ snmpsec datagrams /
  ! snmpsec: cannot read /
  ! snmpsec: /: it is a folder
  [2]
  $ snmpsec datagrams --port 161 --port 161 /dev/null
  refused datagrams /dev/null line 1 column 1
  [1]
  $ snmpsec datagrams --form pcap /dev/null
  refused datagrams /dev/null octet 0
  ! snmpsec: /dev/null: it is cut or malformed from octet 0 on; copy a capture after its writer has ended
  [1]
  $ snmpsec datagrams --form dump /dev/null
  refused datagrams /dev/null line 1
  ! snmpsec: no line has the offset 0 and an octet after it; --form hex reads hex without offsets
  [1]

The form is checked first, then the ports, then the timestamp.

  $ snmpsec datagrams --form PCAP --port -1 --moment x /no/such/file
  ! snmpsec: bad word FORM
  ! snmpsec: FORM "PCAP": unknown form; use pcap, pcapng, log, hex or dump
  [2]
  $ snmpsec datagrams --port -1 --moment x /no/such/file
  ! snmpsec: bad word PORT
  ! snmpsec: PORT "-1": it isn't a number from 0 to 65535; 161 is the port of agents
  [2]
  $ snmpsec datagrams --form hex --moment 18446744073709551616 /no/such/file
  ! snmpsec: bad word MOMENT
  ! snmpsec: MOMENT "18446744073709551616": it isn't whole seconds from 0 to 18446744073709551615; write them as 1700000000
  [2]
  $ snmpsec datagrams --form hex --moment 0 /no/such/file
  ! snmpsec: cannot read /no/such/file
  ! snmpsec: /no/such/file: there is no such file
  [2]
  $ snmpsec datagrams --ip /dev/null
  refused datagrams /dev/null line 1
  ! snmpsec: no line has the offset 0 and an octet after it; --form hex reads hex without offsets
  [1]
  $ snmpsec show --from /dev/null --ip --form dump
  refused datagrams /dev/null line 1
  ! snmpsec: no line has the offset 0 and an octet after it; --form hex reads hex without offsets
  [1]

With `--ip` another form is refused before the ports are checked.

  $ snmpsec datagrams --ip --form hex --port x /no/such/file
  ! snmpsec: bad word FORM
  ! snmpsec: FORM "hex": --ip is for dumps; use dump, or leave FORM out
  [2]
  $ snmpsec open /no/such/config --from /no/such/file --form pcap --ip
  ! snmpsec: bad word FORM
  ! snmpsec: FORM "pcap": --ip is for dumps; use dump, or leave FORM out
  [2]
  $ snmpsec datagrams --ip --form x /no/such/file
  ! snmpsec: bad word FORM
  ! snmpsec: FORM "x": unknown form; use pcap, pcapng, log, hex or dump
  [2]
  $ snmpsec datagrams --ip --port 65536 /no/such/file
  ! snmpsec: bad word PORT
  ! snmpsec: PORT "65536": it isn't a number from 0 to 65535; 161 is the port of agents
  [2]
