`show --from` and `open --from`: the datagrams of a file.

Three records of raw IP: a discovery request, a datagram of DNS, and five octets to port 161 that
aren't a message.

  $ unhex > capture <<'END'
  > d4c3b2a10200040000000000000000000000040065000000
  > 00f15365000000005600000056000000
  >   450000560007000040110000c0000201c00002029c4000a1004200003038020103300e020101020300ffe30401040201
  >   030410300e0400020100020100040004000400301104000400a00b0201010201000201003000
  > 01f15365000000002100000021000000
  >   450000210007000040110000c0000201c00002029c400035000d00003003020103
  > 02f15365000000002100000021000000
  >   450000210007000040110000c0000201c000020200a19c40000d00003003020103
  > END
  $ snmpsec show --port 161 --from capture
  datagram 1 1700000000
  id 1
  max-size 65507
  flags reportable
  engine -
  boots 0
  time 0
  user -
  auth -
  privacy -
  context-engine -
  context -
  pdu a0 1 0 0
  canonical 3038020103300e020101020300ffe30401040201030410300e0400020100020100040004000400301104000400a00b0201010201000201003000
  datagram 2 1700000002
  refused 1 NotMessage at 5
  ! snmpsec: passed over: another port 1
  [1]

With `--names` some lines have a name.

  $ snmpsec show --names --port 161 --from capture
  datagram 1 1700000000
  id 1
  max-size 65507
  flags reportable
  engine -
  boots 0
  time 0
  user -
  auth -
  privacy -
  context-engine -
  context -
  pdu a0 1 0 0 # GetRequest
  canonical 3038020103300e020101020300ffe30401040201030410300e0400020100020100040004000400301104000400a00b0201010201000201003000
  datagram 2 1700000002
  refused 1 NotMessage at 5
  ! snmpsec: passed over: another port 1
  [1]

The file `-` is standard input.

  $ snmpsec show --port 161 --from - < capture > shown
  ! snmpsec: passed over: another port 1
  [1]
  $ head -n 1 shown
  datagram 1 1700000000

The file has one record, two, two and a part of the third, and all three.

  $ head -c 126 capture > f
  $ snmpsec show --port 161 --from f > shown
  $ sed '1,/^canonical/d' shown
  $ head -c 175 capture > f
  $ snmpsec show --port 161 --from f > shown
  ! snmpsec: passed over: another port 1
  $ sed '1,/^canonical/d' shown
  $ head -c 223 capture > f
  $ snmpsec show --port 161 --from f > shown
  ! snmpsec: f: it is cut or malformed from octet 175 on; copy a capture after its writer has ended
  [1]
  $ sed '1,/^canonical/d' shown
  refused datagrams f octet 175
  $ head -c 224 capture > f
  $ snmpsec show --port 161 --from f > shown
  ! snmpsec: passed over: another port 1
  [1]
  $ sed '1,/^canonical/d' shown
  datagram 2 1700000002
  refused 1 NotMessage at 5

`open` uses the users of a configuration. The answer of an engine to a discovery needs none.

  $ cat > report <<'END'
  > 307102010330110204679d6a8d020300ffe30401000201030421301f041180001f8880c932472d51b8036b00000000020101
  > 0201030400040004003036041180001f8880c932472d51b8036b000000000400a81f020408e4e6f10201000201003011300f
  > 060a2b060106030f01010400410101
  > END
  $ : > empty
  $ snmpsec open --moment 7 --port 161 empty --from report
  datagram 1 7
  id 1738369677
  max-size 65507
  flags -
  engine 80001f8880c932472d51b8036b00000000
  boots 1
  time 3
  user -
  auth -
  privacy -
  level noAuthNoPriv
  context-engine 80001f8880c932472d51b8036b00000000
  context -
  pdu a8 149219057 0 0
  binding 1.3.6.1.6.3.15.1.1.4.0 41 01

HEX gives the same lines.

  $ snmpsec open empty $(tr -d '\n' < report)
  id 1738369677
  max-size 65507
  flags -
  engine 80001f8880c932472d51b8036b00000000
  boots 1
  time 3
  user -
  auth -
  privacy -
  level noAuthNoPriv
  context-engine 80001f8880c932472d51b8036b00000000
  context -
  pdu a8 149219057 0 0
  binding 1.3.6.1.6.3.15.1.1.4.0 41 01

A configuration is refused before the file is read.

  $ cat > config <<'END'
  > [[user]]
  > nam = 'ann'
  > END
  $ snmpsec open --moment 7 --port 161 config --from report
  refused config user 0 BadKey
  ! snmpsec: user 0: nam: not a key of this table, the nearest is name
  [1]
