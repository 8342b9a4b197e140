Captures in pcapng that are refused at their first malformed block.

A section, an interface and a packet, of 28, 20 and 80 octets.

  $ unhex > section <<'END'
  > 0a0d0d0a1c0000004d3c2b1a01000000ffffffffffffffff1c000000
  > 0100000014000000010000000000040014000000
  > 060000005000000000000000240a060000401e182f0000002f0000000200000000020200000000010800450000210007
  >   000040110000c0000201c00002029c4000a1000d000030030201030050000000
  > END
  $ snmpsec datagrams section
  1700000000 3003020103
  $ changed() {
  >   head -c $1 section > c
  >   printf "$3" | dd of=c bs=1 seek=$2 conv=notrunc status=none
  >   snmpsec datagrams --port 161 c
  > }

The file ends after the magic number, or the header of the section lacks its last octet.

  $ head -c 4 section > c; snmpsec datagrams --port 161 c
  refused datagrams c octet 0
  ! snmpsec: c: it is cut or malformed from octet 0 on; copy a capture after its writer has ended
  [1]
  $ head -c 27 section > c; snmpsec datagrams --port 161 c
  refused datagrams c octet 0
  ! snmpsec: c: it is cut or malformed from octet 0 on; copy a capture after its writer has ended
  [1]

The byte-order magic, the version or a length is wrong.

  $ changed 128 8 '\116'
  refused datagrams c octet 0
  ! snmpsec: c: it is cut or malformed from octet 0 on; copy a capture after its writer has ended
  [1]
  $ changed 128 12 '\002'
  refused datagrams c octet 0
  ! snmpsec: c: it is cut or malformed from octet 0 on; copy a capture after its writer has ended
  [1]
  $ changed 128 4 '\030'
  refused datagrams c octet 0
  ! snmpsec: c: it is cut or malformed from octet 0 on; copy a capture after its writer has ended
  [1]
  $ changed 128 4 '\035'
  refused datagrams c octet 0
  ! snmpsec: c: it is cut or malformed from octet 0 on; copy a capture after its writer has ended
  [1]
  $ changed 128 24 '\035'
  refused datagrams c octet 0
  ! snmpsec: c: it is cut or malformed from octet 0 on; copy a capture after its writer has ended
  [1]

The interface is cut (three times), has no link type, has a length that isn't a multiple of 4, or
ends with another length.

  $ head -c 29 section > c; snmpsec datagrams --port 161 c
  refused datagrams c octet 28
  ! snmpsec: c: it is cut or malformed from octet 28 on; copy a capture after its writer has ended
  [1]
  $ head -c 39 section > c; snmpsec datagrams --port 161 c
  refused datagrams c octet 28
  ! snmpsec: c: it is cut or malformed from octet 28 on; copy a capture after its writer has ended
  [1]
  $ head -c 47 section > c; snmpsec datagrams --port 161 c
  refused datagrams c octet 28
  ! snmpsec: c: it is cut or malformed from octet 28 on; copy a capture after its writer has ended
  [1]
  $ changed 128 32 '\014\000\000\000'
  refused datagrams c octet 28
  ! snmpsec: c: it is cut or malformed from octet 28 on; copy a capture after its writer has ended
  [1]
  $ changed 128 32 '\025'
  refused datagrams c octet 28
  ! snmpsec: c: it is cut or malformed from octet 28 on; copy a capture after its writer has ended
  [1]
  $ changed 128 44 '\030'
  refused datagrams c octet 28
  ! snmpsec: c: it is cut or malformed from octet 28 on; copy a capture after its writer has ended
  [1]

The packet is cut, has an unknown interface, more octets than its block, another length at the end,
or a length that is too small.

  $ head -c 127 section > c; snmpsec datagrams --port 161 c
  refused datagrams c octet 48
  ! snmpsec: c: it is cut or malformed from octet 48 on; copy a capture after its writer has ended
  [1]
  $ changed 128 56 '\001'
  refused datagrams c octet 48
  ! snmpsec: c: it is cut or malformed from octet 48 on; copy a capture after its writer has ended
  [1]
  $ changed 128 68 '\061'
  refused datagrams c octet 48
  ! snmpsec: c: it is cut or malformed from octet 48 on; copy a capture after its writer has ended
  [1]
  $ changed 128 124 '\124'
  refused datagrams c octet 48
  ! snmpsec: c: it is cut or malformed from octet 48 on; copy a capture after its writer has ended
  [1]
  $ changed 128 52 '\020'
  refused datagrams c octet 48
  ! snmpsec: c: it is cut or malformed from octet 48 on; copy a capture after its writer has ended
  [1]

A block of another type is skipped, whatever its length. An incomplete one is refused.

  $ block() {
  >   head -c 28 section
  >   printf '\005\000\000\000'; printf "$2"; head -c $(($1 - 12)) /dev/zero; printf "$2"
  > }
  $ { block 262172 '\034\000\004\000'; tail -c 100 section; } > c; snmpsec datagrams --port 161 c
  1700000000 3003020103
  $ { block 262176 '\040\000\004\000'; tail -c 100 section; } > c; snmpsec datagrams --port 161 c
  1700000000 3003020103
  $ { block 300000 '\340\223\004\000'; tail -c 100 section; } > c; snmpsec datagrams --port 161 c
  1700000000 3003020103
  $ block 262176 '\040\000\004\000' | head -c -1 > c; snmpsec datagrams --port 161 c
  refused datagrams c octet 28
  ! snmpsec: c: it is cut or malformed from octet 28 on; copy a capture after its writer has ended
  [1]
  $ block 300000 '\340\223\004\000' | head -c -5 > c; snmpsec datagrams --port 161 c
  refused datagrams c octet 28
  ! snmpsec: c: it is cut or malformed from octet 28 on; copy a capture after its writer has ended
  [1]
  $ block 300000 '\340\223\004\000' | head -c -40000 > c; snmpsec datagrams --port 161 c
  refused datagrams c octet 28
  ! snmpsec: c: it is cut or malformed from octet 28 on; copy a capture after its writer has ended
  [1]
