`snmpsec check-log`: is this file a log for `replay`?

A line ends with a carriage return and a line feed.

  $ printf '5 3038\n5 30\r\n' > log
  $ snmpsec check-log log
  refused log log line 2
  ! snmpsec: line 2: a carriage return before the line feed
  [1]

There are two blanks after the timestamp.

  $ echo '5  3038' > log
  $ snmpsec check-log log
  refused log log line 1
  ! snmpsec: line 1: MOMENT, one blank and HEX are wanted
  [1]

A line has no datagram.

  $ echo 5 > log
  $ snmpsec check-log log
  refused log log line 1
  ! snmpsec: line 1: MOMENT, one blank and HEX are wanted
  [1]

The timestamp begins with 0.

  $ echo '05 3038' > log
  $ snmpsec check-log log
  refused log log line 1
  ! snmpsec: line 1: MOMENT "05": whole seconds from 0 to 18446744073709551615 are wanted, without 0 in front
  [1]

A character isn't a hex digit.

  $ echo '5 30g8' > log
  $ snmpsec check-log log
  refused log log line 1
  ! snmpsec: line 1: HEX "30g8": character 3, "g", is no hex digit
  [1]

A digit is missing.

  $ echo '5 303' > log
  $ snmpsec check-log log
  refused log log line 1
  ! snmpsec: line 1: HEX "303": its 3 digits are an odd number
  [1]

The datagram is empty.

  $ printf '5 \n' > log
  $ snmpsec check-log log
  refused log log line 1
  ! snmpsec: line 1: HEX "": it is empty
  [1]

The last line has no line feed.

  $ printf '5 3038\n6 3038' > log
  $ snmpsec check-log log
  refused log log line 2
  ! snmpsec: line 2: it has no line feed at its end
  [1]

A line is empty.

  $ cat > log <<'END'
  > 5 30
  > 
  > END
  $ snmpsec check-log log
  refused log log line 2
  ! snmpsec: line 2: MOMENT, one blank and HEX are wanted
  [1]

Hex digits may be upper-case, and timestamps may go back.

  $ cat > log <<'END'
  > 5 3038
  > 0 AA
  > END
  $ snmpsec check-log log
  line 2
