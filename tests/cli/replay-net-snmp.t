A replay of what `snmpget` and `snmpd` of net-snmp 5.9.3 sent each other.

The exchange has each level and each hash, and at the end a wrong password. `snmpget` accepted each
answer but the last.

The log is that of examples/replay, and the users have the same passwords.

  $ cat > users <<'END'
  > [[user]]
  > name = 'ann'
  > auth = 'md5'
  > auth-password = 'maplesyrup'
  > priv-password = 'maplesyrup'
  > 
  > [[user]]
  > name = 'bob'
  > auth = 'sha1'
  > auth-password = 'maplesyrup'
  > priv-password = 'maplesyrup'
  > 
  > [[user]]
  > name = 'sam'
  > auth = 'sha256'
  > auth-password = 'maplesyrup'
  > priv-password = 'maplesyrup'
  > END
  $ echo 'snmp-clocks 1' > nothing
  $ snmpsec replay --moment 9 users nothing "$TOP/examples/replay/captured.log"
  1 1795405908 refused 6 UnknownEngine
  2 1795405908 accepted noAuthNoPriv a8
  3 1795405908 accepted noAuthNoPriv a0
  4 1795405908 accepted noAuthNoPriv a2
  5 1795405908 refused 6 UnknownEngine
  6 1795405908 accepted noAuthNoPriv a8
  7 1795405908 accepted authNoPriv a0
  8 1795405908 accepted authNoPriv a2
  9 1795405908 refused 6 UnknownEngine
  10 1795405908 accepted noAuthNoPriv a8
  11 1795405908 accepted authNoPriv a0
  12 1795405908 accepted authNoPriv a2
  13 1795405908 refused 6 UnknownEngine
  14 1795405908 accepted noAuthNoPriv a8
  15 1795405908 accepted authPriv a0
  16 1795405908 accepted authPriv a2
  17 1795405909 refused 6 UnknownEngine
  18 1795405909 accepted noAuthNoPriv a8
  19 1795405909 accepted authPriv a0
  20 1795405909 accepted authPriv a2
  21 1795405909 refused 6 UnknownEngine
  22 1795405909 accepted noAuthNoPriv a8
  23 1795405909 refused 9 WrongDigest
  24 1795405909 accepted noAuthNoPriv a8
  snmp-clocks 2
  80001f8880c932472d51b8036b00000000 1 3 1795405908
