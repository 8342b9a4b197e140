Refusals and clocks in captures, which Python's hmac made.

A level without keys, a salt of 7 octets, what decrypts to no scoped PDU, and sealed messages of a user that isn't known.
The last answer has no request.

  $ snmpsec diagnose "$TOP/examples/no-answer.toml" "$TOP/tests/cli/captures/refusals.pcap"
  1  22:13:20.000000  10.0.0.9:40001 > 10.0.0.5:161  bob authNoPriv  Get 1.3.6.1.2.1.1.5.0
      window not judged: nothing is known of the engine's clock yet
      answered after 1.0 ms: 1.3.6.1.2.1.1.5.0 = STRING "router"
  3  22:13:21.000000  10.0.0.9:40001 > 10.0.0.5:161  una authNoPriv  Get 1.3.6.1.2.1.1.5.0
      refused by the agent after 1.0 ms, without authentication: usmStatsUnsupportedSecLevels is 1
      UnknownUser: no user of this name is in this configuration; a hash or a cipher that isn't known here keeps one out
  5  22:13:22.000000  10.0.0.9:40001 > 10.0.0.5:161  bob authPriv  sealed (its direction is a guess)
      refused by the agent after 1.0 ms, without authentication: usmStatsDecryptionErrors is 1
      DecryptionError: the salt hasn't 8 octets: the sender is at fault
  7  22:13:23.000000  10.0.0.9:40001 > 10.0.0.5:161  bob authPriv  sealed (its direction is a guess)
      refused by the agent after 1.0 ms, without authentication: usmStatsDecryptionErrors is 2
      BadScoped: the privacy password or the cipher of the user in this configuration isn't the sender's
  9  22:13:24.000000  10.0.0.9:40001 > 10.0.0.5:161  eve authPriv  sealed (its direction is a guess)
      answered after 1.0 ms; the answer isn't read
      UnknownUser: no user of this name is in this configuration; a hash or a cipher that isn't known here keeps one out
  11  22:13:25.000000  10.0.0.5:161 > 10.0.0.9:40001  eve authPriv  sealed (its direction is a guess)
      UnknownUser: no user of this name is in this configuration; a hash or a cipher that isn't known here keeps one out
  summary
    bob  answered 1, errors 0, refused 2, no answer 0
    una  answered 0, errors 0, refused 1, no answer 0
    eve  answered 0, errors 1, refused 0, no answer 0
    engine 80001f88046167656e74  boots 7, time 1000 at 22:13:20; agent 10.0.0.5:161
  [1]

Datagram 3 has boots ahead of the agent's: the agent refuses it, and the good request after it is accepted. The agent restarts
before 7, so that it has boots 8 from then on. The clock of the capture goes back at 11. Two agents are behind one address from 13 on.
The answer to 17 comes from another address. The last record is a fragment.

  $ snmpsec diagnose "$TOP/examples/no-answer.toml" "$TOP/tests/cli/captures/clocks.pcap"
  1  22:13:20.000000  10.0.0.9:40001 > 10.0.0.5:161  bob authNoPriv  Get 1.3.6.1.2.1.1.5.0
      window not judged: nothing is known of the engine's clock yet
      answered after 1.0 ms: 1.3.6.1.2.1.1.5.0 = STRING "router"
  3  22:13:21.000000  10.0.0.9:40001 > 10.0.0.5:161  bob authNoPriv  Get 1.3.6.1.2.1.1.5.0
      refused by the agent after 1.0 ms: usmStatsNotInTimeWindows is 1
      NotInWindow: the boots or the time in the message aren't the engine's: a restart, a wrong clock, or a message that was kept
  5  22:13:22.000000  10.0.0.9:40001 > 10.0.0.5:161  bob authNoPriv  Get 1.3.6.1.2.1.1.5.0
      answered after 1.0 ms: 1.3.6.1.2.1.1.5.0 = STRING "router"
  7  22:14:20.000000  10.0.0.9:40001 > 10.0.0.5:161  bob authNoPriv  Get 1.3.6.1.2.1.1.5.0
      refused by the agent after 1.0 ms: usmStatsNotInTimeWindows is 1
      by this configuration it is accepted
  9  22:14:21.000000  10.0.0.9:40001 > 10.0.0.5:161  bob authNoPriv  Get 1.3.6.1.2.1.1.5.0
      answered after 1.0 ms: 1.3.6.1.2.1.1.5.0 = STRING "router"
  11  22:13:51.000000  10.0.0.9:40001 > 10.0.0.5:161  bob authNoPriv  Get 1.3.6.1.2.1.1.5.0
      answered after 1.0 ms: 1.3.6.1.2.1.1.5.0 = STRING "router"
  13  22:14:22.000000  10.0.0.9:40001 > 10.0.0.5:161  bob authNoPriv  Get 1.3.6.1.2.1.1.5.0
      window not judged: nothing is known of the engine's clock yet
      answered after 1.0 ms: 1.3.6.1.2.1.1.5.0 = STRING "router"
  15  22:14:23.000000  10.0.0.9:40001 > 10.0.0.5:161  bob authNoPriv  Get 1.3.6.1.2.1.1.5.0
      answered after 1.0 ms: 1.3.6.1.2.1.1.5.0 = STRING "router"
  17  22:14:24.000000  10.0.0.9:40002 > 10.0.0.6:161  bob authNoPriv  Get 1.3.6.1.2.1.1.5.0
      no answer in the capture
  18  22:14:24.001000  10.0.0.5:161 > 10.0.0.9:40002  bob authNoPriv  Response 1.3.6.1.2.1.1.5.0
      its request isn't in the capture, or has its answer
  summary
    bob  answered 6, errors 0, refused 2, no answer 1
    engine 80001f88046167656e74  boots 8, time 14 at 22:14:24; agent 10.0.0.5:161
    engine 80001f88046267656e74  boots 3, time 50 at 22:14:22; agent 10.0.0.5:161
  ! snmpsec: record 19: fragment
  [1]

100,000 discoveries that nothing answers. The oldest are let go when more than 65,536 wait.

  $ awk 'BEGIN { for (i = 0; i < 100000; i++) printf "5 303b02010330110204%08x020300ffe30401040201030410300e0400020100020100040004000400301104000400a00b0201010201000201003000\n", 16777216 + i }' > many
  $ snmpsec diagnose "$TOP/examples/no-answer.toml" many > told
  [1]
  $ grep -c 'not followed further: over 65536 exchanges wait' told
  34464
  $ grep -c 'no answer in the capture' told
  65536
  $ tail -n 1 told
  summary

An engine ID of 4 octets. It isn't empty, so that this is no discovery (RFC 3414, section 4).

  $ printf '5 303c020103300e020101020300ffe304010402010304143012040401020304020100020100040004000400301104000400a00b0201010201000201003000\n' > short
  $ snmpsec diagnose "$TOP/examples/no-answer.toml" short
  1  00:00:05.000000  noAuthNoPriv  Get
      no answer in the capture
      UnknownEngine: the engine ID hasn't 5 to 32 octets: the sender doesn't know the agent's engine yet
  summary
    (no user)  answered 0, errors 0, refused 0, no answer 1
  [1]

Reports of 65,538 engines. Those of the last two aren't opened.

  $ awk 'BEGIN { for (i = 0; i < 65538; i++) { e = sprintf("040980001f8804%08x", i); printf "5 304a020103300e020101020300ffe304010002010304193017%s020100020100040004000400301a%s0400a80b0201010201000201003000\n", e, e } }' > many
  $ snmpsec diagnose "$TOP/examples/no-answer.toml" many > told
  $ grep -c "its request isn't in the capture" told
  65536
  $ tail -n 5 told
  65537  00:00:05.000000  sealed (its direction is a guess)
      not opened: over 65536 engines
  65538  00:00:05.000000  sealed (its direction is a guess)
      not opened: over 65536 engines
  summary

A user of the configuration without a password: the agent accepts what can't be opened here.

  $ printf '[[user]]\nname = "bob"\n' > bob.toml
  $ snmpsec diagnose bob.toml "$TOP/examples/diagnose.pcap" | sed -n '3,8p'
  3  22:13:20.002000  10.0.0.9:40001 > 10.0.0.5:161  bob authNoPriv  Get 1.3.6.1.2.1.1.5.0
      answered after 0.8 ms; the answer isn't read
      UnsupportedLevel: this configuration has no password of the user for the level
  5  22:13:25.000000  10.0.0.9:40001 > 10.0.0.5:161  bob authNoPriv  Get 1.3.6.1.2.1.1.5.0
      refused by the agent after 0.5 ms: usmStatsNotInTimeWindows is 1
      UnsupportedLevel: this configuration has no password of the user for the level
