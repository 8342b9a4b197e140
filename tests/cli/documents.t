Samples of the documents that no other transcript has.

docs/formats.md: what --why prints.

  $ snmpsec show --why 30:38
  ! snmpsec: bad word HEX
  ! snmpsec: HEX "30:38": character 3, ":", is no hex digit; pairs of hex digits are wanted, as 3038; --from FILE takes other forms
  [2]

docs/formats.md: dumps of packets.

  $ cat > dumps.txt <<'END'
  > 22:13:20.000000 IP 127.0.0.1.40001 > 127.0.0.1.161: UDP
  > 	0x0000:  4500 0021 0001 0000 4011 0000 7f00 0001
  > 	0x0010:  7f00 0001 9c41 00a1 000d 0000 3003 0201
  > 	0x0020:  03
  > 22:13:20.000000 IP 127.0.0.1 > 127.0.0.1: udp
  > 	0x0000:  4500 0021 0002 0001 4011 0000 7f00 0001
  > 	0x0010:  7f00 0001 3003 0201 0330 0302 0103 3003
  > 	0x0020:  02
  > 22:13:20.000000 IP 127.0.0.1.40002 > 127.0.0.1.80: Flags
  > 	0x0000:  4500 0028 0003 0000 4006 0000 7f00 0001
  > 	0x0010:  7f00 0001 9c42 0050 0000 0000 0000 0000
  > 	0x0020:  5002 2000 0000 0000
  > END
  $ snmpsec datagrams --ip --moment 1700000000 - < dumps.txt
  1700000000 3003020103
  ! snmpsec: record 2: fragment
  ! snmpsec: passed over: not UDP 1

docs/refusals.md: what check-config reports of three configurations.

  $ cat > access.toml <<'END'
  > access = [
  >     { group = "a", prefix = "", model = 3, level = "authPriv", match = "exact" },
  >     { group = "b", prefix = "", model = 3, level = "authPriv", match = "exact" },
  >     { group = "c", prefix = "", model = 3, level = "authpriv", match = "exact" },
  > ]
  > END
  $ snmpsec check-config access.toml
  refused config access 2 BadKey
  ! snmpsec: access 2: level: one of noAuthNoPriv, authNoPriv, authPriv
  [1]
  $ cat > user.toml <<'END'
  > user = [{ name = "ann", auth = "sha256", authpassword = "maplesyrup" }]
  > END
  $ snmpsec check-config user.toml
  refused config user 0 BadKey
  ! snmpsec: user 0: authpassword: not a key of this table, the nearest is auth-password
  [1]
  $ cat > group.toml <<'END'
  > group = [
  >     { model = 3, name = "a", group = "g" },
  >     { model = 3, name = "b", group = "g" },
  >     { model = 3, name = "c", group = "g" },
  >     { model = 3, name = "d", group = "g" },
  >     { name = "e", group = "g" },
  > ]
  > END
  $ snmpsec check-config group.toml
  refused config group 4 BadKey
  ! snmpsec: group 4: model: missing, a whole number from 0 to 2147483647
  [1]
