`snmpsec datagrams`: a file of datagrams is written as a log.

A capture of four records: a request, a fragment, a datagram of DNS and an answer.

  $ unhex > capture <<'END'
  > d4c3b2a10200040000000000000000000000040001000000
  > 00f15365000000002f0000002f000000
  >   0200000000020200000000010800450000210007000040110000c0000201c00002029c4000a1000d00003003020103
  > 00f15365000000002f0000002f000000
  >   0200000000020200000000010800450000210007200040110000c0000201c00002029c4000a1002800003003020103
  > 01f15365000000002f0000002f000000
  >   0200000000020200000000010800450000210007000040110000c0000201c00002029c400035000d00003003020103
  > 02f15365000000002f0000002f000000
  >   0200000000020200000000010800450000210007000040110000c0000201c000020200a19c40000d00003003020103
  > END

All octets are there.

  $ head -c 276 capture > c
  $ snmpsec datagrams c
  1700000000 3003020103
  1700000002 3003020103
  ! snmpsec: record 2: fragment
  ! snmpsec: passed over: another port 1

The last octet is missing. The datagrams before are printed.

  $ head -c 275 capture > c
  $ snmpsec datagrams c
  1700000000 3003020103
  refused datagrams c octet 213
  ! snmpsec: record 2: fragment
  ! snmpsec: c: it is cut or malformed from octet 213 on; copy a capture after its writer has ended
  [1]

Three records are there.

  $ head -c 213 capture > c
  $ snmpsec datagrams c
  1700000000 3003020103
  ! snmpsec: record 2: fragment
  ! snmpsec: passed over: another port 1

Two records are there.

  $ head -c 150 capture > c
  $ snmpsec datagrams c
  1700000000 3003020103
  ! snmpsec: record 2: fragment

One record is there.

  $ head -c 87 capture > c
  $ snmpsec datagrams c
  1700000000 3003020103

The first lacks its last octet.

  $ head -c 86 capture > c
  $ snmpsec datagrams c
  refused datagrams c octet 24
  ! snmpsec: c: it is cut or malformed from octet 24 on; copy a capture after its writer has ended
  [1]

There is no record.

  $ head -c 24 capture > c
  $ snmpsec datagrams c

The header of the file lacks its last octet.

  $ head -c 23 capture > c
  $ snmpsec datagrams c
  refused datagrams c octet 0
  ! snmpsec: c: it is cut or malformed from octet 0 on; copy a capture after its writer has ended
  [1]

Standard input is `-`.

  $ snmpsec datagrams - < capture
  1700000000 3003020103
  1700000002 3003020103
  ! snmpsec: record 2: fragment
  ! snmpsec: passed over: another port 1

A port is a decimal up to 65535. The option may be repeated.

  $ snmpsec datagrams capture
  1700000000 3003020103
  1700000002 3003020103
  ! snmpsec: record 2: fragment
  ! snmpsec: passed over: another port 1
  $ snmpsec datagrams --port 0 capture
  ! snmpsec: record 2: fragment
  ! snmpsec: passed over: another port 3
  $ snmpsec datagrams --port 65535 --port 161 --port 161 capture
  1700000000 3003020103
  1700000002 3003020103
  ! snmpsec: record 2: fragment
  ! snmpsec: passed over: another port 1
  $ snmpsec datagrams --port 65536 capture
  ! snmpsec: bad word PORT
  ! snmpsec: PORT "65536": it isn't a number from 0 to 65535; 161 is the port of agents
  [2]
  $ snmpsec datagrams --port 161 --port 0162 capture
  ! snmpsec: bad word PORT
  ! snmpsec: PORT "0162": it isn't a number from 0 to 65535; 161 is the port of agents
  [2]
  $ snmpsec datagrams --port '' capture
  ! snmpsec: bad word PORT
  ! snmpsec: PORT "": it isn't a number from 0 to 65535; 161 is the port of agents
  [2]
  $ snmpsec datagrams --port -1 capture
  ! snmpsec: bad word PORT
  ! snmpsec: PORT "-1": it isn't a number from 0 to 65535; 161 is the port of agents
  [2]
  $ snmpsec datagrams --port snmp --port 161 capture
  ! snmpsec: bad word PORT
  ! snmpsec: PORT "snmp": it isn't a number from 0 to 65535; 161 is the port of agents
  [2]

The file may be a capture, hex dumps, or pasted hex.

  $ datagrams() { snmpsec datagrams --moment 7 --port 161 "$@" f; }

Pasted hex is one datagram.

  $ cat > f <<'END'
  > 30 03
  > 02 01 03
  > END
  $ datagrams
  7 3003020103
  $ printf '0x30,0x03, \\x02\\x01 03' > f
  $ datagrams --form hex
  7 3003020103

The text may be longer than the header of a capture.

  $ printf 30:03:02:01:03:30:03:02:01:03 > f
  $ datagrams
  7 30030201033003020103

The text is empty, a digit is missing, or a character isn't hex.

  $ : > f
  $ datagrams
  refused datagrams f line 1 column 1
  [1]
  $ printf 300 > f
  $ datagrams
  refused datagrams f line 1 column 3
  [1]
  $ printf '3003020103\r\n30030201033003020103\r\n30 zz\r\n' > f
  $ datagrams
  refused datagrams f line 3 column 4
  [1]

A capture is recognised by its first four octets, or named by `--form pcap`.

  $ unhex > f <<'END'
  > d4c3b2a10200040000000000000000000000040065000000
  > 00f15365000000002100000021000000
  >   450000210007000040110000c0000201c00002029c4000a1000d00003003020103
  > END
  $ datagrams
  1700000000 3003020103
  $ unhex > f <<'END'
  > d4c3b2a10200040000000000000000000000040065000000
  > 00f15365000000002100000021000000
  >   450000210007000040110000c0000201c00002029c4000a1000d00003003020103
  > END
  $ datagrams --form pcap
  1700000000 3003020103

Read as hex, it is refused.

  $ unhex > f <<'END'
  > d4c3b2a10200040000000000000000000000040065000000
  > 00f15365000000002100000021000000
  >   450000210007000040110000c0000201c00002029c4000a1000d00003003020103
  > END
  $ datagrams --form hex
  refused datagrams f line 1 column 1
  [1]

Four octets of a magic number are a capture that was cut. Three are a text.

  $ printf '\241\262\303\324' > f
  $ datagrams
  refused datagrams f octet 0
  ! snmpsec: f: it is cut or malformed from octet 0 on; copy a capture after its writer has ended
  [1]
  $ printf '\241\262\303' > f
  $ datagrams
  refused datagrams f line 1 column 1
  [1]

With `--form pcap`, what isn't a capture is refused.

  $ printf 3003020103 > f
  $ datagrams --form pcap
  refused datagrams f octet 0
  ! snmpsec: f: it is cut or malformed from octet 0 on; copy a capture after its writer has ended
  [1]
  $ : > f
  $ datagrams --form pcap
  refused datagrams f octet 0
  ! snmpsec: f: it is cut or malformed from octet 0 on; copy a capture after its writer has ended
  [1]

With `--form hex` an offset is octets. Without a blank after its offset a text isn't a dump.

  $ printf '0000 3003020103' > f
  $ datagrams --form hex
  7 00003003020103
  $ printf '00 00:30,03' > f
  $ datagrams
  7 00003003

A dump is recognised by its first line: of xxd, of od after another line, and of tcpdump.

  $ echo '00000000: 3003 0201 03                             0....' > f
  $ datagrams
  7 3003020103
  $ cat > f <<'END'
  > $ od -tx1 f
  > 0000000 30 03 02 01 03
  > 0000005
  > END
  $ datagrams
  7 3003020103
  $ printf '\t0x0000:  3003 0201 03\n' > f
  $ datagrams
  7 3003020103

Two dumps are two datagrams.

  $ cat > f <<'END'
  > 0000  30 03 02 01
  > 0004  03
  > 
  > 0000  30 00
  > END
  $ datagrams --form dump
  7 3003020103
  7 3000

The second dump is wrong, or there is no dump.

  $ cat > f <<'END'
  > 0000 30 03
  > 
  > 0000 30 03
  > 0003 02
  > END
  $ datagrams
  refused datagrams f line 3
  ! snmpsec: line 3: it has more octets or fewer than the offset of the next line says
  [1]
  $ echo 3003020103 > f
  $ datagrams --form dump
  refused datagrams f line 1
  ! snmpsec: no line has the offset 0 and an octet after it; --form hex reads hex without offsets
  [1]
  $ : > f
  $ datagrams --form dump
  refused datagrams f line 1
  ! snmpsec: no line has the offset 0 and an octet after it; --form hex reads hex without offsets
  [1]

With `--form pcap` a dump is refused.

  $ echo '0000 30 03' > f
  $ datagrams --form pcap
  refused datagrams f octet 0
  ! snmpsec: f: it is cut or malformed from octet 0 on; copy a capture after its writer has ended
  [1]

With `--form dump` a capture is refused.

  $ unhex > f <<'END'
  > d4c3b2a10200040000000000000000000000040065000000
  > 00f15365000000002100000021000000
  >   450000210007000040110000c0000201c00002029c4000a1000d00003003020103
  > END
  $ datagrams --form dump
  refused datagrams f line 1
  ! snmpsec: no line has the offset 0 and an octet after it; --form hex reads hex without offsets
  [1]

Standard error says what is wrong with a dump.

  $ echo '0000 30 03' > f
  $ datagrams --form dump
  7 3003
  $ echo '0000 30 0' > f
  $ datagrams --form dump
  refused datagrams f line 1
  ! snmpsec: line 1: after the offset pairs of hex digits are expected, as hexdump -C prints them
  [1]
  $ cat > f <<'END'
  > 0000 30 30
  > *
  > 0004 30 30
  > END
  $ datagrams --form dump
  refused datagrams f line 3
  ! snmpsec: line 3: no dump has begun at the offset 0; if a * replaces lines, print them with -v
  [1]
  $ cat > f <<'END'
  > 
  > 0000 30 30
  > 0004 30 30
  > END
  $ datagrams --form dump
  refused datagrams f line 2
  ! snmpsec: line 2: it has more octets or fewer than the offset of the next line says
  [1]
  $ printf 3003 > f
  $ datagrams --form dump
  refused datagrams f line 1
  ! snmpsec: no line has the offset 0 and an octet after it; --form hex reads hex without offsets
  [1]
