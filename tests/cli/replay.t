`snmpsec replay`: processes a log of datagrams as a manager does.

The log has a discovery request and a report that answers one. There are no clocks and no users.

  $ echo 'snmp-clocks 1' > nothing
  $ : > empty
  $ cat > log <<'END'
  > 5 3038020103300e020101020300ffe30401040201030410300e0400020100020100040004000400301104000400a00b0201010201000201003000
  > 6 3062020103300e020101020300ffe3040100020103041d301b040c000000000000000000000002020107020203e8040004000400302e040c0000000000000000000000020400a81c0201010201000201003011300f060a2b060106030f01010400410101
  > END
  $ snmpsec replay --moment 9 empty nothing log
  1 5 refused 6 UnknownEngine
  2 6 accepted noAuthNoPriv a8
  snmp-clocks 2

The log may be empty.

  $ : > log
  $ snmpsec replay --moment 9 empty nothing log
  snmp-clocks 2

Clocks of version 1 get the timestamp of `--moment`. Those of version 2 have their own.

  $ cat > clocks <<'END'
  > snmp-clocks 1
  > 8000000001 1 5
  > END
  $ : > log
  $ snmpsec replay --moment 9 empty clocks log
  snmp-clocks 2
  8000000001 1 5 9
  $ cat > clocks <<'END'
  > snmp-clocks 2
  > 8000000001 1 5 7
  > END
  $ : > log
  $ snmpsec replay --moment 9 empty clocks log
  snmp-clocks 2
  8000000001 1 5 7

A timestamp is from 0 to 2^64 - 1. Hex digits may be upper-case.

  $ cat > log <<'END'
  > 0 30
  > 18446744073709551615 3aFf
  > END
  $ snmpsec replay --moment 9 empty nothing log
  1 0 refused 1 NotMessage
  2 18446744073709551615 refused 1 NotMessage
  snmp-clocks 2

A malformed line ends the replay, after the answers to the lines before. Here the last line has no
line feed.

  $ printf '5 30' > log
  $ snmpsec replay --moment 9 empty nothing log
  ! snmpsec: log line 1
  [2]
  $ printf '5 30\n6 30' > log
  $ snmpsec replay --moment 9 empty nothing log
  1 5 refused 1 NotMessage
  ! snmpsec: log line 2
  [2]

A line is empty.

  $ echo '' > log
  $ snmpsec replay --moment 9 empty nothing log
  ! snmpsec: log line 1
  [2]
  $ cat > log <<'END'
  > 5 30
  > 
  > 6 30
  > END
  $ snmpsec replay --moment 9 empty nothing log
  1 5 refused 1 NotMessage
  ! snmpsec: log line 2
  [2]

A digit is missing, isn't hex, or is written as in C.

  $ echo '5 3' > log
  $ snmpsec replay --moment 9 empty nothing log
  ! snmpsec: log line 1
  [2]
  $ echo '5 3g' > log
  $ snmpsec replay --moment 9 empty nothing log
  ! snmpsec: log line 1
  [2]
  $ echo '5 0x30' > log
  $ snmpsec replay --moment 9 empty nothing log
  ! snmpsec: log line 1
  [2]

A line has two datagrams, a blank at the end, or no datagram.

  $ echo '5 30 30' > log
  $ snmpsec replay --moment 9 empty nothing log
  ! snmpsec: log line 1
  [2]
  $ printf '5 30 \n' > log
  $ snmpsec replay --moment 9 empty nothing log
  ! snmpsec: log line 1
  [2]
  $ printf '5 \n' > log
  $ snmpsec replay --moment 9 empty nothing log
  ! snmpsec: log line 1
  [2]
  $ echo 5 > log
  $ snmpsec replay --moment 9 empty nothing log
  ! snmpsec: log line 1
  [2]

A line has no timestamp, or a tab instead of the blank.

  $ echo ' 30' > log
  $ snmpsec replay --moment 9 empty nothing log
  ! snmpsec: log line 1
  [2]
  $ printf '5\t30\n' > log
  $ snmpsec replay --moment 9 empty nothing log
  ! snmpsec: log line 1
  [2]

The timestamp has a leading zero or a sign.

  $ echo '05 30' > log
  $ snmpsec replay --moment 9 empty nothing log
  ! snmpsec: log line 1
  [2]
  $ echo '+5 30' > log
  $ snmpsec replay --moment 9 empty nothing log
  ! snmpsec: log line 1
  [2]

A carriage return comes before the line feed.

  $ printf '5 30\r\n' > log
  $ snmpsec replay --moment 9 empty nothing log
  ! snmpsec: log line 1
  [2]

The timestamp is 2^64.

  $ echo '18446744073709551616 30' > log
  $ snmpsec replay --moment 9 empty nothing log
  ! snmpsec: log line 1
  [2]

A line has at most 131,072 octets.

  $ printf '5 %0131070d\n' 0 > log
  $ snmpsec replay empty nothing log
  1 5 refused 1 NotMessage
  snmp-clocks 2
  $ printf '15 %0131070d\n' 0 > log
  $ snmpsec replay empty nothing log
  ! snmpsec: log line 1
  [2]

The number of the first line may be given, up to 10^15.

  $ cat > log <<'END'
  > 0 30
  > 1 30
  > x
  > END
  $ snmpsec replay --moment 9 --from-line 1000000000000000 empty nothing log
  1000000000000000 0 refused 1 NotMessage
  1000000000000001 1 refused 1 NotMessage
  ! snmpsec: log line 1000000000000002
  [2]

With `--clocks-only` only the clocks are printed.

  $ cat > log <<'END'
  > 5 30
  > 6 30
  > END
  $ cat > log <<'END'
  > 5 3038020103300e020101020300ffe30401040201030410300e0400020100020100040004000400301104000400a00b0201010201000201003000
  > 6 3062020103300e020101020300ffe3040100020103041d301b040c000000000000000000000002020107020203e8040004000400302e040c0000000000000000000000020400a81c0201010201000201003011300f060a2b060106030f01010400410101
  > END
  $ snmpsec replay --moment 9 --from-line 7 --clocks-only empty nothing log
  snmp-clocks 2
  $ cat > log <<'END'
  > 0 30
  > x
  > END
  $ snmpsec replay --moment 9 --from-line 7 --clocks-only empty nothing log
  ! snmpsec: log line 8
  [2]

The manager learns boots and time from a report. It has (1,5). The reports have (2,10) and (0,9),
and were made with Python's hmac.

  $ cat > ann <<'END'
  > user = [{ name = 'ann', auth = 'md5', auth-password = 'maplesyrup' }]
  > END
  $ cat > held <<'END'
  > snmp-clocks 1
  > 8000000001 1 5
  > END
  $ cat > log <<'END'
  > 7 3062020103300e020101020300ffe3040101020103042430220405800000000102010202010a0403616e6e040cf924696dfa3de9b7f359829304003027040580000000010400a81c0201010201000201003011300f060a2b060106030f01010200410101
  > END
  $ snmpsec replay --moment 9 ann held log
  1 7 accepted authNoPriv a8
  snmp-clocks 2
  8000000001 2 10 7
  $ cat > log <<'END'
  > 7 3062020103300e020101020300ffe304010102010304243022040580000000010201000201090403616e6e040c84e949b4b0bae2e60497629504003027040580000000010400a81c0201010201000201003011300f060a2b060106030f01010200410101
  > END
  $ snmpsec replay --moment 9 ann held log
  1 7 refused 10 NotInWindow
  snmp-clocks 2
  8000000001 1 5 9

The configuration is checked before the clocks.

  $ : > none
  $ echo 5 > log
  $ printf 'user = \n' > config
  $ snmpsec replay config none log
  refused config toml
  [1]
  $ echo 'user = [1]' > config
  $ snmpsec replay config none log
  refused config top
  [1]
  $ echo 'user = [{ }]' > config
  $ snmpsec replay config none log
  refused config user 0 BadKey
  [1]
  $ echo "group = [{ name = 'ann', group = 'g' }]" > config
  $ snmpsec replay config none log
  refused config group 0 BadKey
  [1]

The clocks are checked before the log: an empty file, no line feed, an unknown version, no line feed
again, a leading zero, boots too large, no timestamp, a timestamp too large, and engines out of
order.

  $ : > c
  $ snmpsec replay --moment 9 empty c log
  refused clocks c line 1
  [1]
  $ printf 'snmp-clocks 1' > c
  $ snmpsec replay --moment 9 empty c log
  refused clocks c line 1
  [1]
  $ echo 'snmp-clocks 3' > c
  $ snmpsec replay --moment 9 empty c log
  refused clocks c line 1
  [1]
  $ printf 'snmp-clocks 1\n8000000001 1 5' > c
  $ snmpsec replay --moment 9 empty c log
  refused clocks c line 2
  [1]
  $ cat > c <<'END'
  > snmp-clocks 1
  > 8000000001 01 5
  > END
  $ snmpsec replay --moment 9 empty c log
  refused clocks c line 2
  [1]
  $ cat > c <<'END'
  > snmp-clocks 1
  > 8000000001 2147483648 0
  > END
  $ snmpsec replay --moment 9 empty c log
  refused clocks c line 2
  [1]
  $ cat > c <<'END'
  > snmp-clocks 2
  > 8000000001 1 5
  > END
  $ snmpsec replay --moment 9 empty c log
  refused clocks c line 2
  [1]
  $ cat > c <<'END'
  > snmp-clocks 2
  > 8000000001 1 5 18446744073709551616
  > END
  $ snmpsec replay --moment 9 empty c log
  refused clocks c line 2
  [1]
  $ cat > c <<'END'
  > snmp-clocks 1
  > 8000000002 0 0
  > 8000000001 1 5
  > END
  $ snmpsec replay --moment 9 empty c log
  refused clocks c line 3
  [1]
