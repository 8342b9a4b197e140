Pasted hex: `snmpsec datagrams` reads it in the forms that people paste.

Each of these texts has the octets 30 03 02 01 AF.

  $ read_hex() { cat > f; snmpsec datagrams f; }
  $ printf 30030201af | read_hex
  0 30030201af
  $ printf '30 03 02 01 AF\n' | read_hex
  0 30030201af
  $ printf 30:03:02:01:af | read_hex
  0 30030201af
  $ printf '30-03-02-01-AF\r\n' | read_hex
  0 30030201af

xxd -p, od -An -tx1 and text2pcap print these.

  $ printf '300302\n01af\n' | read_hex
  0 30030201af
  $ printf ' 30 03 02\n 01 af\n' | read_hex
  0 30030201af
  $ printf '3003 0201 af' | read_hex
  0 30030201af
  $ printf '\t30\t03\n\n\n  0201\t\t af' | read_hex
  0 30030201af

Array elements in C, a C string over two lines, and one long number.

  $ printf '0x30, 0x03, 0X02,\n  0x01, 0XAf,' | read_hex
  0 30030201af
  $ printf '"\\x30\\x03" \\\n"\\x02\\x01\\xaf"' | read_hex
  0 30030201af
  $ printf '\\x30\\\r\n\\x03\\x02\\x01\\xAF' | read_hex
  0 30030201af
  $ printf 0x30030201af | read_hex
  0 30030201af

The first place that isn't hex is reported.

There are no octets.

  $ printf '' | read_hex
  refused datagrams f line 1 column 1
  [1]
  $ printf ' \n\n,' | read_hex
  refused datagrams f line 3 column 2
  [1]

A digit is alone.

  $ printf 3 | read_hex
  refused datagrams f line 1 column 1
  [1]
  $ printf '30 300' | read_hex
  refused datagrams f line 1 column 6
  [1]
  $ printf '30 3 003' | read_hex
  refused datagrams f line 1 column 4
  [1]

A character isn't a digit.

  $ printf '30 3g' | read_hex
  refused datagrams f line 1 column 4
  [1]
  $ printf '30\r\n02 zz' | read_hex
  refused datagrams f line 2 column 4
  [1]
  $ printf '# 30' | read_hex
  refused datagrams f line 1 column 1
  [1]
  $ printf '30 00\377' | read_hex
  refused datagrams f line 1 column 6
  [1]

A prefix has no pair of digits after it.

  $ printf '30\n 0x3' | read_hex
  refused datagrams f line 2 column 2
  [1]
  $ printf '30 \\X30' | read_hex
  refused datagrams f line 1 column 4
  [1]
  $ printf 0x0x30 | read_hex
  refused datagrams f line 1 column 1
  [1]

The backslash isn't at the end of a line.

  $ printf '30 \\ \n31' | read_hex
  refused datagrams f line 1 column 4
  [1]
  $ printf '30\\\r31' | read_hex
  refused datagrams f line 1 column 3
  [1]

A text with the first line of a dump is read as dumps: of xxd, hexdump -C, od -tx1 and tcpdump -x.

  $ printf '00000000: 3003 0201 03                             0....\n' | read_hex
  0 3003020103
  $ printf '00000000  30 03 02 01 03                           |0....|\n' | read_hex
  0 3003020103
  $ printf '0000000 30 03 02 01 03\n0000005\n' | read_hex
  0 3003020103
  $ printf '\t0x0000:  3003 0201 03' | read_hex
  0 3003020103

The dump comes after other lines. An offset other than 0 doesn't begin one.

  $ printf 'Frame 1:\r\n\r\n0000  30 03\r\n' | read_hex
  0 3003
  $ printf '0010  30\n0000\t30\n0000 30\n' | read_hex
  refused datagrams f line 1
  ! snmpsec: line 1: no dump has begun at the offset 0; if a * replaces lines, print them with -v
  [1]

Three digits, nine digits, and another number than 0 aren't an offset: the digits are hex.

  $ printf '000 30' | read_hex
  refused datagrams f line 1 column 3
  [1]
  $ printf '000000000 30' | read_hex
  refused datagrams f line 1 column 9
  [1]
  $ printf '0010 30' | read_hex
  0 001030

The offset has no blank after it, no octet, half of one, or something that isn't a digit.

  $ printf 0000:30 | read_hex
  0 000030
  $ printf 00003003 | read_hex
  0 00003003
  $ printf '0000 ' | read_hex
  0 0000
  $ printf '0000 3' | read_hex
  refused datagrams f line 1 column 6
  [1]
  $ printf '0000 3g' | read_hex
  refused datagrams f line 1 column 6
  [1]

The offset isn't at the beginning of a line, or the text is empty.

  $ printf '30 0000 30' | read_hex
  0 30000030
  $ printf '' | read_hex
  refused datagrams f line 1 column 1
  [1]
