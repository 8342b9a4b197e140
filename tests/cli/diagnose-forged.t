Answers that aren't the answer, in a capture that Python's hmac made.

Behind the Get of datagram 3 come a Response without authentication and one with a wrong code, and then its answer.
Datagram 8 has another request-id than 7. A Report without authentication comes before the answer to 9, and alone behind
12. Datagram 14 has a context. The discovery of datagram 15 has no answer.

  $ snmpsec diagnose "$TOP/examples/no-answer.toml" "$TOP/tests/cli/captures/forged.pcap"
  1  22:13:20.000000  10.0.0.9:40001 > 10.0.0.5:161  bob authNoPriv  Get 1.3.6.1.2.1.1.5.0
      window not judged: nothing is known of the engine's clock yet
      answered after 0.4 ms: 1.3.6.1.2.1.1.5.0 = STRING "router-7"
  3  22:13:21.000000  10.0.0.9:40001 > 10.0.0.5:161  bob authNoPriv  Get 1.3.6.1.2.1.1.5.0
      answered after 0.5 ms: 1.3.6.1.2.1.1.5.0 = STRING "router-7"
  4  22:13:21.000100  10.0.0.5:161 > 10.0.0.9:40001  bob noAuthNoPriv  Response 1.3.6.1.2.1.1.5.0
      not taken as the answer: its level isn't the request's
  5  22:13:21.000200  10.0.0.5:161 > 10.0.0.9:40001  bob authNoPriv  Response 1.3.6.1.2.1.1.5.0
      not taken as the answer, since it is refused
      WrongDigest: the password or the hash of the user in this configuration isn't the sender's
  7  22:13:22.000000  10.0.0.9:40001 > 10.0.0.5:161  bob authNoPriv  Get 1.3.6.1.2.1.1.5.0
      no answer in the capture
  8  22:13:22.000300  10.0.0.5:161 > 10.0.0.9:40001  bob authNoPriv  Response 1.3.6.1.2.1.1.5.0
      not taken as the answer: its request-id isn't the request's
  9  22:13:23.000000  10.0.0.9:40001 > 10.0.0.5:161  bob authNoPriv  Get 1.3.6.1.2.1.1.5.0
      datagram 10 refused it before, without authentication
      answered after 0.6 ms: 1.3.6.1.2.1.1.5.0 = STRING "router-7"
  12  22:13:24.000000  10.0.0.9:40001 > 10.0.0.5:161  bob authNoPriv  Get 1.3.6.1.2.1.1.5.0
      refused by the agent after 0.2 ms, without authentication: usmStatsWrongDigests is 4
      by this configuration it is accepted
  14  22:13:25.000000  10.0.0.9:40001 > 10.0.0.5:161  bob authNoPriv  context vlan-7  Get 1.3.6.1.2.1.1.5.0
      no answer in the capture
  15  22:13:26.000000  10.0.0.9:40001 > 10.0.0.5:161  discovery
      no answer in the capture
  summary
    bob  answered 3, errors 0, refused 1, no answer 2
    engine 80001f88046b6f77616e7169  boots 7, time 1000 at 22:13:20; agent 10.0.0.5:161
  [1]

The same as JSON: the Report is the answer, or is named before it.

  $ snmpsec diagnose --json "$TOP/examples/no-answer.toml" "$TOP/tests/cli/captures/forged.pcap" > told
  [1]
  $ grep -o '"authentic":false' told | sort | uniq -c | tr -s ' '
   2 "authentic":false
  $ grep -o '"context":"[^"]*"' told
  "context":"vlan-7"
  $ grep -o '"remark":"not the answer[^"]*"' told
  "remark":"not the answer: another level"
  "remark":"not the answer: refused"
  "remark":"not the answer: another request-id"

Nothing is looked at: no such user, no such agent, another port, or a capture without a datagram.

  $ cp "$TOP/tests/cli/captures/forged.pcap" "$TOP/examples/no-answer.toml" .
  $ snmpsec diagnose --user nobody no-answer.toml forged.pcap
  summary
  ! snmpsec: forged.pcap: no exchange that is wanted; the users there: bob; the agents there: 10.0.0.5:161
  [2]
  $ snmpsec diagnose --agent 10.0.0.77 no-answer.toml forged.pcap
  summary
  ! snmpsec: forged.pcap: no exchange that is wanted; the users there: bob; the agents there: 10.0.0.5:161
  [2]
  $ snmpsec diagnose --port 1161 no-answer.toml forged.pcap
  summary
  ! snmpsec: passed over: another port 15
  ! snmpsec: forged.pcap: no datagram of SNMP from or to the ports that are looked at; --port names others
  [2]
  $ head -c 24 forged.pcap > empty.pcap
  $ snmpsec diagnose no-answer.toml empty.pcap
  summary
  ! snmpsec: empty.pcap: no datagram of SNMP from or to the ports that are looked at; --port names others
  [2]
