Captures that are refused at their first malformed octet, and which datagrams are selected.

Two records: a request and a fragment.

  $ unhex > two <<'END'
  > d4c3b2a10200040000000000000000000000040001000000
  > 00f15365000000002f0000002f000000
  >   0200000000020200000000010800450000210007000040110000c0000201c00002029c4000a1000d00003003020103
  > 00f15365000000002f0000002f000000
  >   0200000000020200000000010800450000210007200040110000c0000201c00002029c4000a1000d00003003020103
  > END
  $ changed() {
  >   head -c $1 two > c
  >   printf "$3" | dd of=c bs=1 seek=$2 conv=notrunc status=none
  >   snmpsec datagrams --form pcap --port 161 c
  > }

The file is empty, or its header lacks the last octet.

  $ head -c 0 two > c; snmpsec datagrams --form pcap --port 161 c
  refused datagrams c octet 0
  ! snmpsec: c: it is cut or malformed from octet 0 on; copy a capture after its writer has ended
  [1]
  $ head -c 23 two > c; snmpsec datagrams --form pcap --port 161 c
  refused datagrams c octet 0
  ! snmpsec: c: it is cut or malformed from octet 0 on; copy a capture after its writer has ended
  [1]

The file begins with an unknown magic number, or with that of another format.

  $ changed 150 0 '\324\303\262\240'
  refused datagrams c octet 0
  ! snmpsec: c: it is cut or malformed from octet 0 on; copy a capture after its writer has ended
  [1]
  $ changed 150 0 '\064\315\262\241'
  refused datagrams c octet 0
  ! snmpsec: c: it is cut or malformed from octet 0 on; copy a capture after its writer has ended
  [1]

The version is unknown, or the link type is above the maximum.

  $ changed 150 4 '\001'
  refused datagrams c octet 4
  ! snmpsec: c: it is cut or malformed from octet 4 on; copy a capture after its writer has ended
  [1]
  $ changed 150 4 '\000\002'
  refused datagrams c octet 4
  ! snmpsec: c: it is cut or malformed from octet 4 on; copy a capture after its writer has ended
  [1]
  $ changed 150 22 '\001'
  refused datagrams c octet 20
  ! snmpsec: c: it is cut or malformed from octet 20 on; copy a capture after its writer has ended
  [1]

The last record lacks an octet of its packet or of its header, or has only its first octet.

  $ head -c 149 two > c; snmpsec datagrams --form pcap --port 161 c
  1700000000 3003020103
  refused datagrams c octet 87
  ! snmpsec: c: it is cut or malformed from octet 87 on; copy a capture after its writer has ended
  [1]
  $ head -c 102 two > c; snmpsec datagrams --form pcap --port 161 c
  1700000000 3003020103
  refused datagrams c octet 87
  ! snmpsec: c: it is cut or malformed from octet 87 on; copy a capture after its writer has ended
  [1]
  $ head -c 88 two > c; snmpsec datagrams --form pcap --port 161 c
  1700000000 3003020103
  refused datagrams c octet 87
  ! snmpsec: c: it is cut or malformed from octet 87 on; copy a capture after its writer has ended
  [1]

The packet is one octet longer than the maximum.

  $ changed 150 95 '\001\000\004\000'
  1700000000 3003020103
  refused datagrams c octet 87
  ! snmpsec: c: it is cut or malformed from octet 87 on; copy a capture after its writer has ended
  [1]

A datagram is selected if it is from or to one of the ports.

  $ snmpsec datagrams --port 161 --port 7 two
  1700000000 3003020103
  ! snmpsec: record 2: fragment
  $ snmpsec datagrams --port 40000 two
  1700000000 3003020103
  ! snmpsec: record 2: fragment
  $ snmpsec datagrams --port 40001 --port 162 two
  ! snmpsec: record 2: fragment
  ! snmpsec: passed over: another port 1

`packet LINK CAPTURED SENT OCTETS` makes a capture of one packet of raw IP. The first three are
octal.

  $ packet() {
  >   printf '\324\303\262\241\002\000\004\000\000\000\000\000\000\000\000\000\000\000\004\000'
  >   printf "\\$1\000\000\000\000\361\123\145\000\000\000\000\\$2\000\000\000\\$3\000\000\000"
  >   echo 450000210007000040110000c0000201c00002029c4000a1000d00003003020103 | unhex | head -c $4
  > }

All octets are there.

  $ packet 145 041 041 33 | snmpsec datagrams -
  1700000000 3003020103

The last octet was cut.

  $ packet 145 040 041 32 | snmpsec datagrams -
  ! snmpsec: record 1: cut short

The capture has a part of the IP header.

  $ packet 145 023 041 19 | snmpsec datagrams -
  ! snmpsec: record 1: cut short

The packet itself ends in the IP header.

  $ packet 145 023 023 19 | snmpsec datagrams -
  ! snmpsec: passed over: not IP 1

With the link type of Ethernet the same octets aren't IP.

  $ packet 001 041 041 33 | snmpsec datagrams -
  ! snmpsec: passed over: not IP 1

The link type is unknown.

  $ packet 151 041 041 33 | snmpsec datagrams -
  ! snmpsec: passed over: link type 105 1
