Several dumps in a text, and texts that can't be read: `snmpsec datagrams --form dump`.

  $ read_dumps() { cat > f; snmpsec datagrams --form dump f; }

Two dumps may follow each other, or have a line between. Each has its own number base.

  $ read_dumps <<'END'
  > 0000 30 31
  > 0000 32
  > END
  0 3031
  0 32
  $ read_dumps <<'END'
  > 0000 30 31
  > 
  > 0000 32
  > 0001
  > END
  0 3031
  0 32
  $ read_dumps <<'END'
  > 0000 30 31 32 33 34 35 36 37 38 39
  > 0010 41
  > 
  > 0000 30 31 32 33 34 35 36 37
  > 0010 41
  > END
  0 3031323334353637383941
  0 303132333435363741

After two blanks a column of text may repeat the octets. Its digits aren't octets.

  $ printf '00000000: 3031  01\n' | read_dumps
  0 3031
  $ printf '00000000: 3031 01\n' | read_dumps
  0 303101
  $ printf '0000  30 31  |01|\n' | read_dumps
  0 3031
  $ printf '0000  30 31  >01<\n' | read_dumps
  0 3031

The column may lack the blanks at its end.

  $ printf '00000000: 3132 2020  12\n' | read_dumps
  0 31322020
  $ printf '00000000: 2031 2020    1\n' | read_dumps
  0 20312020

A column that doesn't repeat the octets is read as hex digits.

  $ printf '0000  30 31  02\n' | read_dumps
  0 303102

A word of hex letters isn't a dump, nor is a number alone.

  $ read_dumps <<'END'
  > added later
  > 2026
  > 0000
  > 0000 30
  > END
  0 30
  $ read_dumps <<'END'
  > 0000 30
  > 0001
  > 
  > face
  > END
  0 30

A line may end with blanks and a tab.

  $ printf ' 0X0000:\t30 31 \t\n' | read_dumps
  0 3031

An offset has 4 to 8 digits: not three, and not nine.

  $ printf '000 30\n000000000 30\n0000 31' | read_dumps
  0 31

These texts have no dump.

  $ printf '' | read_dumps
  refused datagrams f line 1
  ! snmpsec: no line has the offset 0 and an octet after it; --form hex reads hex without offsets
  [1]
  $ read_dumps <<'END'
  > # no dump here
  > 0000
  > END
  refused datagrams f line 1
  ! snmpsec: no line has the offset 0 and an octet after it; --form hex reads hex without offsets
  [1]
  $ printf '0000:30\n' | read_dumps
  refused datagrams f line 1
  ! snmpsec: no line has the offset 0 and an octet after it; --form hex reads hex without offsets
  [1]

The next offset doesn't match the number of octets.

  $ read_dumps <<'END'
  > 0000 30 31
  > 0003 32
  > END
  refused datagrams f line 1
  ! snmpsec: line 1: it has more octets or fewer than the offset of the next line says
  [1]
  $ read_dumps <<'END'
  > 0000 30 31
  > 0001 32
  > END
  refused datagrams f line 1
  ! snmpsec: line 1: it has more octets or fewer than the offset of the next line says
  [1]
  $ read_dumps <<'END'
  > 
  > 0000 30 31
  > 0002 32
  > 0004
  > END
  refused datagrams f line 3
  ! snmpsec: line 3: it has more octets or fewer than the offset of the next line says
  [1]
  $ read_dumps <<'END'
  > 0000 30 31
  > 0000
  > END
  refused datagrams f line 1
  ! snmpsec: line 1: it has more octets or fewer than the offset of the next line says
  [1]

The next offset is in another number base.

  $ read_dumps <<'END'
  > 0000 30 31 32 33 34 35 36 37
  > 0010 38 39
  > 000a 30
  > END
  refused datagrams f line 2
  ! snmpsec: line 2: it has more octets or fewer than the offset of the next line says
  [1]

Without `-v` hexdump leaves lines out.

  $ read_dumps <<'END'
  > 00000000  30 30
  > *
  > 00000004  31
  > END
  refused datagrams f line 3
  ! snmpsec: line 3: no dump has begun at the offset 0; if a * replaces lines, print them with -v
  [1]
  $ read_dumps <<'END'
  > 0010 30
  > 0000 30
  > END
  refused datagrams f line 1
  ! snmpsec: line 1: no dump has begun at the offset 0; if a * replaces lines, print them with -v
  [1]

The column of text doesn't match the octets.

  $ printf '00000000: 3031  0z\n' | read_dumps
  refused datagrams f line 1
  ! snmpsec: line 1: after the offset pairs of hex digits are expected, as hexdump -C prints them
  [1]
  $ printf '00000000: 3031  .1\n' | read_dumps
  refused datagrams f line 1
  ! snmpsec: line 1: after the offset pairs of hex digits are expected, as hexdump -C prints them
  [1]
  $ printf '00000000: 3020  .\n' | read_dumps
  refused datagrams f line 1
  ! snmpsec: line 1: after the offset pairs of hex digits are expected, as hexdump -C prints them
  [1]
  $ printf '0000  30 31  |02|\n' | read_dumps
  refused datagrams f line 1
  ! snmpsec: line 1: after the offset pairs of hex digits are expected, as hexdump -C prints them
  [1]
  $ printf '0000  30 31  |01\n' | read_dumps
  refused datagrams f line 1
  ! snmpsec: line 1: after the offset pairs of hex digits are expected, as hexdump -C prints them
  [1]
  $ printf '0000  30 31  01|\n' | read_dumps
  refused datagrams f line 1
  ! snmpsec: line 1: after the offset pairs of hex digits are expected, as hexdump -C prints them
  [1]

Only blanks may be before the column.

  $ printf '0000  30 31  x|01|\n' | read_dumps
  refused datagrams f line 1
  ! snmpsec: line 1: after the offset pairs of hex digits are expected, as hexdump -C prints them
  [1]
  $ printf '0000  30 31  x>01<\n' | read_dumps
  refused datagrams f line 1
  ! snmpsec: line 1: after the offset pairs of hex digits are expected, as hexdump -C prints them
  [1]

The column needs two blanks before it.

  $ printf '00000000: 302e 0.\n' | read_dumps
  refused datagrams f line 1
  ! snmpsec: line 1: after the offset pairs of hex digits are expected, as hexdump -C prints them
  [1]

hexdump and od -x print numbers of two octets with the octets swapped, and xxd -e numbers of four.

  $ read_dumps <<'END'
  > 0000000 3e30 0102
  > 0000004
  > END
  refused datagrams f line 1
  ! snmpsec: line 1: after the offset pairs of hex digits are expected, as hexdump -C prints them
  [1]
  $ printf '00000000: 01021430  0...\n' | read_dumps
  refused datagrams f line 1
  ! snmpsec: line 1: after the offset pairs of hex digits are expected, as hexdump -C prints them
  [1]

A digit is missing.

  $ read_dumps <<'END'
  > 
  > 0000 30 3
  > END
  refused datagrams f line 2
  ! snmpsec: line 2: after the offset pairs of hex digits are expected, as hexdump -C prints them
  [1]

In a dump, other words come after an offset.

  $ read_dumps <<'END'
  > 0000 30
  > 0001 3
  > END
  refused datagrams f line 2
  ! snmpsec: line 2: after the offset pairs of hex digits are expected, as hexdump -C prints them
  [1]
  $ read_dumps <<'END'
  > 0000 30
  > 0002 words
  > END
  refused datagrams f line 2
  ! snmpsec: line 2: after the offset pairs of hex digits are expected, as hexdump -C prints them
  [1]

Only the first fault is reported.

  $ read_dumps <<'END'
  > 0000 3z
  > 0001 30
  > 0000 3
  > END
  refused datagrams f line 2
  ! snmpsec: line 2: no dump has begun at the offset 0; if a * replaces lines, print them with -v
  [1]
