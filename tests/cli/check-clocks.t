`snmpsec check-clocks`: are these files saved clocks?

Each file has the number of its engines.

  $ printf 'snmp-clocks 2\n8000000001 1 5 7\n8000000002 0 0 7\n' > two
  $ echo 'snmp-clocks 1' > none
  $ snmpsec check-clocks two none
  clocks two engine 2
  clocks none engine 0

The first wrong line is reported, and what is wrong with it.

The heading is unknown, or has no line feed.

  $ echo 'snmp-clocks 3' > c
  $ snmpsec check-clocks two c
  refused clocks c line 1
  ! snmpsec: line 1: snmp-clocks 2 is wanted
  [1]
  $ printf 'snmp-clocks 2' > c
  $ snmpsec check-clocks two c
  refused clocks c line 1
  ! snmpsec: line 1: it has no line feed at its end
  [1]

A line ends with a carriage return.

  $ printf 'snmp-clocks 2\r\n' > c
  $ snmpsec check-clocks two c
  refused clocks c line 1
  ! snmpsec: line 1: a carriage return before the line feed
  [1]
  $ printf 'snmp-clocks 2\n8000000001 1 5 7\r\n' > c
  $ snmpsec check-clocks two c
  refused clocks c line 2
  ! snmpsec: line 2: a carriage return before the line feed
  [1]

A line has too few words, too many, or two blanks.

  $ cat > c <<'END'
  > snmp-clocks 2
  > 8000000001 1 5
  > END
  $ snmpsec check-clocks two c
  refused clocks c line 2
  ! snmpsec: line 2: 4 words with a blank between are wanted: ENGINE BOOTS TIME SEEN
  [1]
  $ cat > c <<'END'
  > snmp-clocks 1
  > 8000000001 1 5 7
  > END
  $ snmpsec check-clocks two c
  refused clocks c line 2
  ! snmpsec: line 2: 3 words with a blank between are wanted: ENGINE BOOTS TIME
  [1]
  $ cat > c <<'END'
  > snmp-clocks 2
  > 8000000001  1 5 7
  > END
  $ snmpsec check-clocks two c
  refused clocks c line 2
  ! snmpsec: line 2: 4 words with a blank between are wanted: ENGINE BOOTS TIME SEEN
  [1]
  $ cat > c <<'END'
  > snmp-clocks 2
  > 
  > END
  $ snmpsec check-clocks two c
  refused clocks c line 2
  ! snmpsec: line 2: 4 words with a blank between are wanted: ENGINE BOOTS TIME SEEN
  [1]

The engine isn't 5 to 32 octets in lower-case hex.

  $ cat > c <<'END'
  > snmp-clocks 2
  > 80000000 1 5 7
  > END
  $ snmpsec check-clocks two c
  refused clocks c line 2
  ! snmpsec: line 2: ENGINE "80000000": 10 to 64 lower-case hex digits in pairs are wanted
  [1]
  $ cat > c <<'END'
  > snmp-clocks 2
  > 80000000AB 1 5 7
  > END
  $ snmpsec check-clocks two c
  refused clocks c line 2
  ! snmpsec: line 2: ENGINE "80000000AB": 10 to 64 lower-case hex digits in pairs are wanted
  [1]
  $ cat > c <<'END'
  > snmp-clocks 2
  > 800000000 1 5 7
  > END
  $ snmpsec check-clocks two c
  refused clocks c line 2
  ! snmpsec: line 2: ENGINE "800000000": 10 to 64 lower-case hex digits in pairs are wanted
  [1]

The boots, the time or the timestamp has a leading zero, or is too large.

  $ cat > c <<'END'
  > snmp-clocks 2
  > 8000000001 01 5 7
  > END
  $ snmpsec check-clocks two c
  refused clocks c line 2
  ! snmpsec: line 2: BOOTS "01": a whole number from 0 to 2147483647 is wanted, without 0 in front
  [1]
  $ cat > c <<'END'
  > snmp-clocks 2
  > 8000000001 2147483648 5 7
  > END
  $ snmpsec check-clocks two c
  refused clocks c line 2
  ! snmpsec: line 2: BOOTS "2147483648": a whole number from 0 to 2147483647 is wanted, without 0 in front
  [1]
  $ cat > c <<'END'
  > snmp-clocks 2
  > 8000000001 1 x 7
  > END
  $ snmpsec check-clocks two c
  refused clocks c line 2
  ! snmpsec: line 2: TIME "x": a whole number from 0 to 2147483647 is wanted, without 0 in front
  [1]
  $ cat > c <<'END'
  > snmp-clocks 2
  > 8000000001 1 5 18446744073709551616
  > END
  $ snmpsec check-clocks two c
  refused clocks c line 2
  ! snmpsec: line 2: SEEN "18446744073709551616": a whole number from 0 to 18446744073709551615 is wanted, without 0 in front
  [1]

An engine comes after a greater one, or twice.

  $ cat > c <<'END'
  > snmp-clocks 2
  > 8000000002 1 5 7
  > 8000000001 1 5 7
  > END
  $ snmpsec check-clocks two c
  refused clocks c line 3
  ! snmpsec: line 3: ENGINE 8000000001: one above that of the line before is wanted
  [1]
  $ cat > c <<'END'
  > snmp-clocks 2
  > 8000000001 1 5 7
  > 8000000001 1 6 7
  > END
  $ snmpsec check-clocks two c
  refused clocks c line 3
  ! snmpsec: line 3: ENGINE 8000000001: one above that of the line before is wanted
  [1]

The last line has no line feed.

  $ printf 'snmp-clocks 2\n8000000001 1 5 7\n8000000002 1 5 7' > c
  $ snmpsec check-clocks two c
  refused clocks c line 3
  ! snmpsec: line 3: it has no line feed at its end
  [1]
