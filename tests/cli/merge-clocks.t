`snmpsec merge-clocks`: merges saved clocks.

These files have the clocks of one engine and of two, in both versions.

  $ cat > one <<'END'
  > snmp-clocks 1
  > 8000000001 1 5
  > END
  $ cat > two <<'END'
  > snmp-clocks 1
  > 8000000001 1 5
  > 8000000002 0 0
  > END
  $ cat > two-at-7 <<'END'
  > snmp-clocks 2
  > 8000000001 1 5 7
  > 8000000002 0 0 7
  > END
  $ cat > at-100 <<'END'
  > snmp-clocks 2
  > 8000000001 1 5 100
  > END
  $ cat > at-90 <<'END'
  > snmp-clocks 2
  > 8000000001 1 5 90
  > END
  $ cat > greater <<'END'
  > snmp-clocks 2
  > 8000000001 1 6 200
  > END

Files without engines are merged into one.

  $ echo 'snmp-clocks 1' > 0
  $ snmpsec merge-clocks --moment 7 0
  snmp-clocks 2
  $ echo 'snmp-clocks 2' > 0
  $ snmpsec merge-clocks --moment 7 0
  snmp-clocks 2

Neither the order of the files nor repeats matter.

  $ snmpsec merge-clocks --moment 7 one two
  snmp-clocks 2
  8000000001 1 5 7
  8000000002 0 0 7
  $ snmpsec merge-clocks --moment 7 two one
  snmp-clocks 2
  8000000001 1 5 7
  8000000002 0 0 7
  $ snmpsec merge-clocks --moment 7 one two one two one two
  snmp-clocks 2
  8000000001 1 5 7
  8000000002 0 0 7

Of equal pairs the earlier timestamp is kept.

  $ snmpsec merge-clocks --moment 7 at-100 at-90
  snmp-clocks 2
  8000000001 1 5 90
  $ snmpsec merge-clocks --moment 7 at-90 at-100
  snmp-clocks 2
  8000000001 1 5 90
  $ snmpsec merge-clocks --moment 7 at-100 at-90 greater
  snmp-clocks 2
  8000000001 1 6 200
  $ snmpsec merge-clocks --moment 7 greater at-90 at-100
  snmp-clocks 2
  8000000001 1 6 200

Files of both versions may be mixed.

  $ snmpsec merge-clocks --moment 7 one at-90
  snmp-clocks 2
  8000000001 1 5 7
  $ snmpsec merge-clocks --moment 7 greater two
  snmp-clocks 2
  8000000001 1 6 200
  8000000002 0 0 7
  $ snmpsec merge-clocks --moment 7 two two-at-7
  snmp-clocks 2
  8000000001 1 5 7
  8000000002 0 0 7

The greatest pair is kept: boots first, then time.

  $ cat > 0 <<'END'
  > snmp-clocks 1
  > 8000000001 1 500
  > END
  $ cat > 1 <<'END'
  > snmp-clocks 1
  > 8000000001 2 10
  > END
  $ cat > 2 <<'END'
  > snmp-clocks 1
  > 8000000001 1 900
  > END
  $ snmpsec merge-clocks --moment 7 0 1 2
  snmp-clocks 2
  8000000001 2 10 7

The first wrong line is reported: engines out of order, an empty file, a leading zero, upper-case
digits, no line feed, boots too large, an engine too short, an engine twice, an unknown version.

  $ cat > 0 <<'END'
  > snmp-clocks 1
  > 8000000002 0 0
  > 8000000001 1 5
  > END
  $ snmpsec merge-clocks --moment 7 0
  refused clocks 0 line 3
  [1]
  $ : > 0
  $ snmpsec merge-clocks --moment 7 0
  refused clocks 0 line 1
  [1]
  $ cat > 0 <<'END'
  > snmp-clocks 1
  > 8000000001 1 5
  > END
  $ cat > 1 <<'END'
  > snmp-clocks 1
  > 8000000001 01 5
  > END
  $ : > 2
  $ snmpsec merge-clocks --moment 7 0 1 2
  refused clocks 1 line 2
  [1]
  $ cat > 0 <<'END'
  > snmp-clocks 1
  > 80000000AB 1 5
  > END
  $ snmpsec merge-clocks --moment 7 0
  refused clocks 0 line 2
  [1]
  $ printf 'snmp-clocks 1\n8000000001 1 5' > 0
  $ snmpsec merge-clocks --moment 7 0
  refused clocks 0 line 2
  [1]
  $ printf 'snmp-clocks 1' > 0
  $ snmpsec merge-clocks --moment 7 0
  refused clocks 0 line 1
  [1]
  $ cat > 0 <<'END'
  > snmp-clocks 1
  > 8000000001 2147483648 0
  > END
  $ snmpsec merge-clocks --moment 7 0
  refused clocks 0 line 2
  [1]
  $ cat > 0 <<'END'
  > snmp-clocks 1
  > 800000 1 1
  > END
  $ snmpsec merge-clocks --moment 7 0
  refused clocks 0 line 2
  [1]
  $ cat > 0 <<'END'
  > snmp-clocks 1
  > 8000000001 1 5
  > 8000000001 1 5
  > END
  $ snmpsec merge-clocks --moment 7 0
  refused clocks 0 line 3
  [1]
  $ echo 'snmp-clocks 3' > 0
  $ snmpsec merge-clocks --moment 7 0
  refused clocks 0 line 1
  [1]

Each version has its own lines.

  $ cat > 0 <<'END'
  > snmp-clocks 2
  > 8000000001 1 5
  > END
  $ snmpsec merge-clocks --moment 7 0
  refused clocks 0 line 2
  [1]
  $ cat > 0 <<'END'
  > snmp-clocks 1
  > 8000000001 1 5 7
  > END
  $ snmpsec merge-clocks --moment 7 0
  refused clocks 0 line 2
  [1]

A timestamp is a decimal below 2^64.

  $ cat > 0 <<'END'
  > snmp-clocks 2
  > 8000000001 1 5 18446744073709551616
  > END
  $ snmpsec merge-clocks --moment 7 0
  refused clocks 0 line 2
  [1]
  $ cat > 0 <<'END'
  > snmp-clocks 2
  > 8000000001 1 5 07
  > END
  $ snmpsec merge-clocks --moment 7 0
  refused clocks 0 line 2
  [1]

At least one file is needed.

  $ snmpsec merge-clocks
  ! error: the following required arguments were not provided:
  !   <FILE>...
  !
  ! Usage: snmpsec merge-clocks <FILE>...
  !
  ! For more information, try '--help'.
  [2]

The greatest timestamp is kept, also when it is merged again.

  $ snmpsec merge-clocks --moment 18446744073709551615 one
  snmp-clocks 2
  8000000001 1 5 18446744073709551615
  $ snmpsec merge-clocks --moment 18446744073709551615 one > saved
  $ snmpsec merge-clocks --moment 0 saved
  snmp-clocks 2
  8000000001 1 5 18446744073709551615

Without `--moment` clocks of version 1 get the timestamp 0.

  $ snmpsec merge-clocks one
  snmp-clocks 2
  8000000001 1 5 0
