Dumps of packets, as tcpdump prints them: `--ip`.

`tcpdump -n -x` prints a discovery request, an answer over IPv6, a first fragment, TCP, a datagram
of DNS and a trap.

  $ sed 's/^0x/\t0x/' > dumps <<'END'
  > 22:13:20.000000 IP 192.0.2.1.40000 > 192.0.2.2.161:  F=r U="" E= C="" GetRequest(11)
  > 0x0000:  4500 0056 0007 0000 4011 f68c c000 0201
  > 0x0010:  c000 0202 9c40 00a1 0042 3be7 3038 0201
  > 0x0020:  0330 0e02 0101 0203 00ff e304 0104 0201
  > 0x0030:  0304 1030 0e04 0002 0100 0201 0004 0004
  > 0x0040:  0004 0030 1104 0004 00a0 0b02 0101 0201
  > 0x0050:  0002 0100 3000
  > 22:13:21.000000 IP6 2001:db8::2.161 > 2001:db8::1.40000:  [nothing to parse]
  > 0x0000:  6000 0000 000d 1140 2001 0db8 0000 0000
  > 0x0010:  0000 0000 0000 0002 2001 0db8 0000 0000
  > 0x0020:  0000 0000 0000 0001 00a1 9c40 000d d279
  > 0x0030:  3003 0201 03
  > 22:13:22.000000 IP 192.0.2.1.40000 > 192.0.2.2.161:  [P/U/U-0][!init SEQ]_02
  > 0x0000:  4500 002c 0009 2000 4011 d6b4 c000 0201
  > 0x0010:  c000 0202 9c40 00a1 00c8 0000 0001 0203
  > 0x0020:  0405 0607 0809 0a0b 0c0d 0e0f
  > 22:13:23.000000 IP 192.0.2.1.40001 > 192.0.2.2.161: Flags [S], seq 1, win 1024, length 0
  > 0x0000:  4500 0028 0008 0000 4006 f6c4 c000 0201
  > 0x0010:  c000 0202 9c41 00a1 0000 0001 0000 0000
  > 0x0020:  5002 0400 8afb 0000
  > 22:13:24.000000 IP 192.0.2.1.40000 > 192.0.2.2.53: domain [length 5 < 12] (invalid)
  > 0x0000:  4500 0021 0007 0000 4011 f6c1 c000 0201
  > 0x0010:  c000 0202 9c40 0035 000d aa56 3003 0201
  > 0x0020:  03
  > 22:13:25.000000 IP 192.0.2.1.40000 > 192.0.2.2.162:  [1 extra after iSEQ][nothing to parse]
  > 0x0000:  4500 0022 0007 0000 4011 f6c0 c000 0201
  > 0x0010:  c000 0202 9c40 00a2 000e a9e7 3003 0201
  > 0x0020:  0300
  > END
  $ snmpsec datagrams --ip --moment 7 --port 161 --port 162 dumps
  7 3038020103300e020101020300ffe30401040201030410300e0400020100020100040004000400301104000400a00b0201010201000201003000
  7 3003020103
  7 300302010300
  ! snmpsec: record 3: fragment
  ! snmpsec: passed over: another port 1, not UDP 1

A dump may have one line. A dump of a datagram alone isn't a packet.

  $ cat > f <<'END'
  > 0000  45 00 00 21 00 07 00 00 40 11 f6 c1 c0 00 02 01 c0 00 02 02 9c 40 00 a1 00 0d a9 ea 30 03 02 01 03
  > END
  $ snmpsec datagrams --ip --moment 7 --port 40000 f
  7 3003020103
  $ echo '0000 30 03 02 01 03' > f
  $ snmpsec datagrams --ip --moment 7 --port 161 f
  ! snmpsec: passed over: not IP 1

If the text has no dumps, nothing is said about packets.

  $ cat > f <<'END'
  > 0000 45 00
  > 0003 00
  > END
  $ snmpsec datagrams --ip --moment 7 --port 161 f
  refused datagrams f line 1
  ! snmpsec: line 1: it has more octets or fewer than the offset of the next line says
  [1]
  $ cat > f <<'END'
  > 45000021000700004011f6c1c0000201c00002029c4000a1000da9ea3003020103
  > END
  $ snmpsec datagrams --ip --moment 7 --port 161 f
  refused datagrams f line 1
  ! snmpsec: no line has the offset 0 and an octet after it; --form hex reads hex without offsets
  [1]
  $ : > f
  $ snmpsec datagrams --ip --moment 7 --port 161 f
  refused datagrams f line 1
  ! snmpsec: no line has the offset 0 and an octet after it; --form hex reads hex without offsets
  [1]

`show` prints the datagrams of the packets.

  $ snmpsec show --ip --moment 7 --port 161 --from dumps
  datagram 1 7
  id 1
  max-size 65507
  flags reportable
  engine -
  boots 0
  time 0
  user -
  auth -
  privacy -
  context-engine -
  context -
  pdu a0 1 0 0
  canonical 3038020103300e020101020300ffe30401040201030410300e0400020100020100040004000400301104000400a00b0201010201000201003000
  datagram 2 7
  refused 1 NotMessage at 5
  ! snmpsec: record 3: fragment
  ! snmpsec: passed over: another port 2, not UDP 1
  [1]

Here each line is a dump.

  $ read_packets() { sed 's/^/0000 /' > f; snmpsec datagrams --ip --moment 7 f; }

A request over IPv4, an answer over IPv6, and a trap.

  $ read_packets <<'END'
  > 45 00 00 21 00 07 00 00 40 11 f6 c1 c0 00 02 01 c0 00 02 02 9c 40 00 a1 00 0d a9 ea 30 03 02 01 03
  > 60 00 00 00 00 0d 11 40 20 01 0d b8 00 00 00 00 00 00 00 00 00 00 00 02 20 01 0d b8 00 00 00 00 00 00 00 00 00 00 00 01 00 a1 9c 40 00 0d d2 79 30 03 02 01 03
  > 45 00 00 22 00 07 00 00 40 11 f6 c0 c0 00 02 01 c0 00 02 02 9c 40 00 a2 00 0e a9 e7 30 03 02 01 03 00
  > END
  7 3003020103
  7 3003020103
  7 300302010300

A first fragment, a last one, and one of IPv6.

  $ read_packets <<'END'
  > 45 00 00 2c 00 09 20 00 40 11 d6 b4 c0 00 02 01 c0 00 02 02 9c 40 00 a1 00 c8 00 00 00 01 02 03 04 05 06 07 08 09 0a 0b 0c 0d 0e 0f
  > 45 00 00 21 00 07 00 00 40 11 f6 c1 c0 00 02 01 c0 00 02 02 9c 40 00 a1 00 0d a9 ea 30 03 02 01 03
  > 45 00 00 24 00 09 00 05 40 11 f6 b7 c0 00 02 01 c0 00 02 02 00 00 00 00 00 00 00 00 00 00 00 00 00 00 00 00
  > 60 00 00 00 00 15 2c 40 20 01 0d b8 00 00 00 00 00 00 00 00 00 00 00 01 20 01 0d b8 00 00 00 00 00 00 00 00 00 00 00 02 11 00 00 01 00 00 00 07 9c 40 00 a1 00 0d 00 00 30 03 02 01 03
  > END
  7 3003020103
  ! snmpsec: record 1: fragment
  ! snmpsec: record 3: fragment
  ! snmpsec: record 4: fragment

One packet lacks its last octet, one has the UDP length 7, and one has an empty datagram.

  $ read_packets <<'END'
  > 45 00 00 21 00 07 00 00 40 11 f6 c1 c0 00 02 01 c0 00 02 02 9c 40 00 a1 00 0d a9 ea 30 03 02 01
  > 45 00 00 21 00 07 00 00 40 11 f6 c1 c0 00 02 01 c0 00 02 02 9c 40 00 a1 00 07 a9 ea 30 03 02 01 03
  > 45 00 00 1c 00 07 00 00 40 11 f6 c6 c0 00 02 01 c0 00 02 02 9c 40 00 a1 00 08 de f8
  > END
  ! snmpsec: record 1: cut short
  ! snmpsec: record 2: bad length
  ! snmpsec: record 3: empty datagram

TCP, a datagram of DNS, 19 octets of a header, and a frame of Ethernet.

  $ read_packets <<'END'
  > 45 00 00 28 00 08 00 00 40 06 f6 c4 c0 00 02 01 c0 00 02 02 9c 41 00 a1 00 00 00 01 00 00 00 00 50 02 04 00 8a fb 00 00
  > 45 00 00 21 00 07 00 00 40 11 f6 c1 c0 00 02 01 c0 00 02 02 9c 40 00 35 00 0d aa 56 30 03 02 01 03
  > 45 00 00 21 00 07 00 00 40 11 f6 c1 c0 00 02 01 c0 00 02
  > 02 00 00 00 00 02 02 00 00 00 00 01 08 00 45 00 00 21 00 07 00 00 40 11 f6 c1 c0 00 02 01 c0 00 02 02 9c 40 00 a1 00 0d a9 ea 30 03 02 01 03
  > END
  ! snmpsec: passed over: another port 1, not IP 2, not UDP 1

The octets of a datagram alone aren't a packet.

  $ read_packets <<'END'
  > 30 03 02 01 03
  > END
  ! snmpsec: passed over: not IP 1
