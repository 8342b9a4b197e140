What `snmpsec diagnose` prints of a capture.

A capture of a manager and an agent, made with Python's hmac. Each exchange is a block, in the order of first datagrams.
Datagram 5 has boots ahead and a right code: the agent refuses it, and the good request after it is accepted.
The user eve isn't in the configuration, and the password of datagram 9 is wrong. 17 is sent again as 18. 20 has no answer:
the answer to the same msgID goes to another port. 26 is a copy of 3, ten minutes later.

  $ snmpsec diagnose "$TOP/examples/no-answer.toml" "$TOP/examples/diagnose.pcap"
  1  22:13:20.001000  10.0.0.9:40001 > 10.0.0.5:161  discovery
      answered after 0.4 ms: engine 80001f88046b6f77616e7169
  3  22:13:20.002000  10.0.0.9:40001 > 10.0.0.5:161  bob authNoPriv  Get 1.3.6.1.2.1.1.5.0
      window not judged: nothing is known of the engine's clock yet
      answered after 0.8 ms: 1.3.6.1.2.1.1.5.0 = STRING "router-7"
  5  22:13:25.000000  10.0.0.9:40001 > 10.0.0.5:161  bob authNoPriv  Get 1.3.6.1.2.1.1.5.0
      refused by the agent after 0.5 ms: usmStatsNotInTimeWindows is 1
      NotInWindow: the boots or the time in the message aren't the engine's: a restart, a wrong clock, or a message that was kept
  7  22:13:26.000000  10.0.0.9:40001 > 10.0.0.5:161  bob authNoPriv  Get 1.3.6.1.2.1.1.1.0
      answered after 0.7 ms: 1.3.6.1.2.1.1.1.0 = STRING "a router"
  9  22:13:30.000000  10.0.0.9:40001 > 10.0.0.5:161  bob authNoPriv  Get 1.3.6.1.2.1.1.5.0
      refused by the agent after 0.3 ms, without authentication: usmStatsWrongDigests is 4
      WrongDigest: the password or the hash of the user in this configuration isn't the sender's
  11  22:13:31.000000  10.0.0.9:40001 > 10.0.0.5:161  eve authNoPriv  Get 1.3.6.1.2.1.1.5.0
      refused by the agent after 0.2 ms, without authentication: usmStatsUnknownUserNames is 2
      UnknownUser: no user of this name is in this configuration; a hash or a cipher that isn't known here keeps one out
  13  22:13:32.000000  10.0.0.9:40001 > 10.0.0.5:161  bob authNoPriv  Set 1.3.6.1.2.1.1.4.0
      answered after 0.9 ms: error authorizationError at 1
      by this configuration noGroupName: context row 0 (line 20)
  15  22:13:33.000000  10.0.0.9:40001 > 10.0.0.5:161  bob authNoPriv  Get 1.3.6.1.2.1.99.0
      answered after 0.4 ms: 1.3.6.1.2.1.99.0 = noSuchObject
      by this configuration noGroupName: context row 0 (line 20)
  17  22:13:40.000000  10.0.0.9:40001 > 10.0.0.5:161  bob authNoPriv  Get 1.3.6.1.2.1.1.5.0
      sent again and answered as 18
  18  22:13:41.000000  10.0.0.9:40001 > 10.0.0.5:161  bob authNoPriv  Get 1.3.6.1.2.1.1.5.0
      retransmission of 17
      answered after 0.6 ms: 1.3.6.1.2.1.1.5.0 = STRING "router-7"
  20  22:13:42.000000  10.0.0.9:40001 > 10.0.0.5:161  bob authNoPriv  Get 1.3.6.1.2.1.1.5.0
      no answer in the capture
  21  22:13:42.000100  10.0.0.9:40002 > 10.0.0.5:161  bob authNoPriv  Get 1.3.6.1.2.1.1.1.0
      answered after 0.1 ms: 1.3.6.1.2.1.1.1.0 = STRING "a router"
  23  22:13:50.000000  10.0.0.5:50000 > 10.0.0.9:162  bob authNoPriv  Trap 1.3.6.1.2.1.1.3.0
  24  22:13:51.000000  [2001:db8::5]:50000 > [2001:db8::9]:162  ann authNoPriv  Inform 1.3.6.1.2.1.1.3.0
      window not judged: nothing is known of the engine's clock yet
      answered after 0.3 ms: 1.3.6.1.2.1.1.3.0 = Timeticks 16
  26  22:23:20.000000  10.0.0.9:40001 > 10.0.0.5:161  bob authNoPriv  Get 1.3.6.1.2.1.1.5.0
      copy of 3, a replay that the time window refuses
  summary
    bob  answered 5, errors 1, refused 2, no answer 1
    eve  answered 0, errors 0, refused 1, no answer 0
    ann  answered 1, errors 0, refused 0, no answer 0
    engine 80001f88046b6f77616e7169  boots 7, time 1030 at 22:13:50; agent 10.0.0.5:161
    engine 80001f88046e6d73  boots 1, time 50 at 22:13:51; agent [2001:db8::9]:162
  [1]

A refused configuration is one line.

  $ snmpsec diagnose "$TOP/examples/diagnose.pcap" "$TOP/examples/diagnose.pcap"
  refused config toml
  ! snmpsec: TOML parse error at line 1, column 1: invalid UTF-8
  [1]

So are refused clocks, with `--json` too.

  $ printf 'snmp-clocks 3\n' > clocks
  $ snmpsec diagnose --json --clocks clocks "$TOP/examples/no-answer.toml" "$TOP/examples/diagnose.pcap"
  refused clocks clocks line 1
  ! snmpsec: line 1: snmp-clocks 2 is wanted
  [1]

A file that isn't there.

  $ snmpsec diagnose "$TOP/examples/no-answer.toml" missing
  ! snmpsec: cannot read missing
  ! snmpsec: missing: there is no such file
  [2]

One user's exchanges. Only these are counted, and only they decide the status.

  $ snmpsec diagnose --user ann "$TOP/examples/no-answer.toml" "$TOP/examples/diagnose.pcap"
  24  22:13:51.000000  [2001:db8::5]:50000 > [2001:db8::9]:162  ann authNoPriv  Inform 1.3.6.1.2.1.1.3.0
      window not judged: nothing is known of the engine's clock yet
      answered after 0.3 ms: 1.3.6.1.2.1.1.3.0 = Timeticks 16
  summary
    ann  answered 1, errors 0, refused 0, no answer 0
    engine 80001f88046e6d73  boots 1, time 50 at 22:13:51; agent [2001:db8::9]:162

One engine's exchanges, as JSON: an object a line.

  $ snmpsec diagnose --json --engine 80001f88046e6d73 "$TOP/examples/no-answer.toml" "$TOP/examples/diagnose.pcap"
  {"counts":true,"ending":{"after_microseconds":300,"datagram":25,"in_window":true,"kind":"answered","says":{"kind":"values","more_values":0,"values":[{"name":"1.3.6.1.2.1.1.3.0","type":"Timeticks","value":16}]},"views":[]},"request":{"copy_of":null,"datagram":24,"engine":"80001f88046e6d73","from":"[2001:db8::5]:50000","level":"authNoPriv","microseconds":0,"refused":null,"remark":"window not judged","retransmission_of":null,"seconds":1700000031,"time":"22:13:51.000000","to":"[2001:db8::9]:162","user":"ann","what":{"kind":"Inform","more_names":0,"names":["1.3.6.1.2.1.1.3.0"]}}}
  {"summary":{"engines":[{"agent":"[2001:db8::9]:162","boots":1,"engine":"80001f88046e6d73","seen":1700000031,"time":50}],"users":[{"answered":1,"errors":0,"no_answer":0,"refused":0,"user":"ann"}]}}

An engine ID that is none.

  $ snmpsec diagnose --engine 80 "$TOP/examples/no-answer.toml" "$TOP/examples/diagnose.pcap"
  ! snmpsec: bad word ENGINE
  ! snmpsec: ENGINE "80": it isn't 5 to 32 octets in hex; write it as 80001f8804616263
  [2]

A capture that is cut: what was found before is printed, standard error says from where on, and the status is 2.

  $ head -c 900 "$TOP/examples/diagnose.pcap" > cut.pcap
  $ snmpsec diagnose "$TOP/examples/no-answer.toml" cut.pcap
  1  22:13:20.001000  10.0.0.9:40001 > 10.0.0.5:161  discovery
      answered after 0.4 ms: engine 80001f88046b6f77616e7169
  3  22:13:20.002000  10.0.0.9:40001 > 10.0.0.5:161  bob authNoPriv  Get 1.3.6.1.2.1.1.5.0
      window not judged: nothing is known of the engine's clock yet
      answered after 0.8 ms: 1.3.6.1.2.1.1.5.0 = STRING "router-7"
  5  22:13:25.000000  10.0.0.9:40001 > 10.0.0.5:161  bob authNoPriv  Get 1.3.6.1.2.1.1.5.0
      no answer in the capture
      NotInWindow: the boots or the time in the message aren't the engine's: a restart, a wrong clock, or a message that was kept
  summary
    bob  answered 1, errors 0, refused 0, no answer 1
    engine 80001f88046b6f77616e7169  boots 7, time 1000 at 22:13:20; agent 10.0.0.5:161
  ! snmpsec: cut.pcap: it is cut or malformed from octet 746 on; copy a capture after its writer has ended
  [2]

The same as JSON: the line that refuses the file is an object too.

  $ snmpsec diagnose --json "$TOP/examples/no-answer.toml" cut.pcap | grep refused_datagrams
  ! snmpsec: cut.pcap: it is cut or malformed from octet 746 on; copy a capture after its writer has ended
  {"refused_datagrams":{"column":null,"file":"cut.pcap","line":null,"octet":746}}

A log of which a line is none: standard error says what is wrong with the line, and from where on nothing is read.

  $ snmpsec datagrams "$TOP/examples/diagnose.pcap" 2>/dev/null | head -n 2 > cut.log
  $ echo '1700000001 30' >> cut.log; printf '1700000002 3' >> cut.log
  $ snmpsec diagnose "$TOP/examples/no-answer.toml" cut.log > found
  ! snmpsec: line 4: HEX "3": its 1 digits are an odd number
  ! snmpsec: cut.log: it is out of its form from line 4 on; what stands before is printed
  [2]
  $ tail -n 1 found
  summary

A message that can't be opened, since its user isn't in the configuration. By its ports 15 is a request, and 16 its answer.

  $ : > none.toml
  $ sealed() { snmpsec diagnose "$@" none.toml "$TOP/examples/replay/captured.pcap" | grep -A 2 sealed | head -n 3; }
  $ sealed
  15  03:51:48.441017  127.0.0.1:40161 > 127.0.0.1:161  bob authPriv  sealed (its direction is a guess)
      answered after 0.0 ms; the answer isn't read
      UnknownUser: no user of this name is in this configuration; a hash or a cipher that isn't known here keeps one out
  $ sealed --agent 127.0.0.1:161
  15  03:51:48.441017  127.0.0.1:40161 > 127.0.0.1:161  bob authPriv  sealed
      answered after 0.0 ms; the answer isn't read
      UnknownUser: no user of this name is in this configuration; a hash or a cipher that isn't known here keeps one out

By the agent that is named the direction is no guess. 15 is an answer then, and nothing answers 16.

  $ sealed --agent 127.0.0.1:40161
  15  03:51:48.441017  127.0.0.1:40161 > 127.0.0.1:161  bob authPriv  sealed
      UnknownUser: no user of this name is in this configuration; a hash or a cipher that isn't known here keeps one out
  16  03:51:48.441025  127.0.0.1:161 > 127.0.0.1:40161  bob authPriv  sealed
  $ snmpsec diagnose --json --agent 127.0.0.1:161 none.toml "$TOP/examples/replay/captured.pcap" | grep -o '"what":{"guess[^}]*}' | uniq -c | sed 's/^ *//'
  2 "what":{"guess":false,"kind":"sealed"}

Both ends have this address: it is a guess. Exchanges with other agents are neither printed nor counted.

  $ sealed --agent 127.0.0.1 | head -n 1
  15  03:51:48.441017  127.0.0.1:40161 > 127.0.0.1:161  bob authPriv  sealed (its direction is a guess)
  $ snmpsec diagnose --agent 2001:db8::5 --agent '[2001:db8::9]:161' "$TOP/examples/no-answer.toml" "$TOP/examples/diagnose.pcap"
  24  22:13:51.000000  [2001:db8::5]:50000 > [2001:db8::9]:162  ann authNoPriv  Inform 1.3.6.1.2.1.1.3.0
      window not judged: nothing is known of the engine's clock yet
      answered after 0.3 ms: 1.3.6.1.2.1.1.3.0 = Timeticks 16
  summary
    ann  answered 1, errors 0, refused 0, no answer 0
    engine 80001f88046e6d73  boots 1, time 50 at 22:13:51; agent [2001:db8::9]:162
  $ cp "$TOP/examples/diagnose.pcap" .
  $ snmpsec diagnose --agent 10.0.0.5:162 "$TOP/examples/no-answer.toml" diagnose.pcap
  summary
  ! snmpsec: diagnose.pcap: no exchange that is wanted; the users there: bob, eve, ann; the agents there: 10.0.0.5:161, [2001:db8::9]:162
  [2]

An agent is no name, and its port is a number.

  $ snmpsec diagnose --agent localhost none.toml "$TOP/examples/replay/captured.pcap"
  ! snmpsec: bad word AGENT
  ! snmpsec: AGENT "localhost": it isn't an address, with or without a port; write it as 10.0.0.5, 10.0.0.5:161, 2001:db8::5 or [2001:db8::5]:161
  [2]
  $ snmpsec diagnose --agent 127.0.0.1:x none.toml "$TOP/examples/replay/captured.pcap"
  ! snmpsec: bad word AGENT
  ! snmpsec: AGENT "127.0.0.1:x": it isn't an address, with or without a port; write it as 10.0.0.5, 10.0.0.5:161, 2001:db8::5 or [2001:db8::5]:161
  [2]
