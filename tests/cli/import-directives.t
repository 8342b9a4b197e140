Each directive of snmpd.conf that `snmpsec import-snmpd` knows. The others have a note `other`.

These make rows.

  $ cat > f <<'END'
  > group g usm ann
  > access g "" usm auth exact v v v
  > setaccess g a usm auth exact read v
  > authaccess read h v
  > view v included .1
  > rouser bob
  > rwuser carl
  > authuser read dora
  > authgroup read i
  > createUser ann
  > rocommunity one
  > rocommunity6 two
  > rwcommunity three
  > rwcommunity6 four
  > authcommunity read five
  > END
  $ snmpsec import-snmpd f | rows
  ! f:11: left out: rocommunity: messages of SNMPv1 and SNMPv2c are refused here; its rows are for a name of its own
  ! f:12: left out: rocommunity6: messages of SNMPv1 and SNMPv2c are refused here; its rows are for a name of its own
  ! f:13: left out: rwcommunity: messages of SNMPv1 and SNMPv2c are refused here; its rows are for a name of its own
  ! f:14: left out: rwcommunity6: messages of SNMPv1 and SNMPv2c are refused here; its rows are for a name of its own
  ! f:15: left out: authcommunity: messages of SNMPv1 and SNMPv2c are refused here; its rows are for a name of its own
  f:10: user name="ann"
  context: context name=""
  f:11: group model=1 name="comm5" group="grpcomm5"
  f:12: group model=1 name="comm6" group="grpcomm6"
  f:13: group model=1 name="comm7" group="grpcomm7"
  f:14: group model=1 name="comm8" group="grpcomm8"
  f:15: group model=1 name="comm9" group="grpcomm9"
  f:11: group model=2 name="comm5" group="grpcomm5"
  f:12: group model=2 name="comm6" group="grpcomm6"
  f:13: group model=2 name="comm7" group="grpcomm7"
  f:14: group model=2 name="comm8" group="grpcomm8"
  f:15: group model=2 name="comm9" group="grpcomm9"
  f:1: group model=3 name="ann" group="g"
  f:6: group model=3 name="bob" group="grpbob"
  f:7: group model=3 name="carl" group="grpcarl"
  f:8: group model=3 name="dora" group="grpdora"
  f:2: access group="g" prefix="" model=3 level="authNoPriv" match="exact" read="v" write="v" notify="v"
  f:3: access group="g" prefix="a" model=3 level="authNoPriv" match="exact" read="v"
  f:4: access group="h" prefix="" model=0 level="authNoPriv" match="exact" read="v"
  f:9: access group="i" prefix="" model=3 level="authNoPriv" match="prefix" read="_all_"
  f:6: access group="grpbob" prefix="" model=3 level="authNoPriv" match="prefix" read="_all_"
  f:7: access group="grpcarl" prefix="" model=3 level="authNoPriv" match="prefix" read="_all_" write="_all_" notify="_all_"
  f:8: access group="grpdora" prefix="" model=3 level="authNoPriv" match="prefix" read="_all_"
  f:11: access group="grpcomm5" prefix="" model=0 level="noAuthNoPriv" match="prefix" read="_all_"
  f:12: access group="grpcomm6" prefix="" model=0 level="noAuthNoPriv" match="prefix" read="_all_"
  f:13: access group="grpcomm7" prefix="" model=0 level="noAuthNoPriv" match="prefix" read="_all_" write="_all_" notify="_all_"
  f:14: access group="grpcomm8" prefix="" model=0 level="noAuthNoPriv" match="prefix" read="_all_" write="_all_" notify="_all_"
  f:15: access group="grpcomm9" prefix="" model=0 level="noAuthNoPriv" match="prefix" read="_all_"
  f:5: family view="v" subtree="1" include=true
  built in: family view="_all_" subtree="0" include=true
  built in: family view="_all_" subtree="1" include=true
  built in: family view="_all_" subtree="2" include=true

These are left out.

  $ cat > f <<'END'
  > com2sec a b c
  > com2sec6 a b c
  > com2secunix a b c
  > usmUser 1
  > vacmView 1
  > vacmGroup 1
  > vacmAccess 1
  > vacmAuthAccess 1
  > END
  $ snmpsec import-snmpd f | rows
  ! snmpsec: 1 usmUser line has localised keys, which can't be taken over: give such users by createUser
  ! f:1: left out: com2sec: a community's name here is that of a group row of model 1 or 2
  ! f:2: left out: com2sec6: a community's name here is that of a group row of model 1 or 2
  ! f:3: left out: com2secunix: a community's name here is that of a group row of model 1 or 2
  ! f:4: left out: usmUser: a row that snmpd itself has saved
  ! f:5: left out: vacmView: a row that snmpd itself has saved
  ! f:6: left out: vacmGroup: a row that snmpd itself has saved
  ! f:7: left out: vacmAccess: a row that snmpd itself has saved
  ! f:8: left out: vacmAuthAccess: a row that snmpd itself has saved
  context: context name=""

Others have nothing to do with users and access.

  $ cat > f <<'END'
  > groups g usm ann
  > com2sec7 a b c
  > usmUsers 1
  > syslocation here
  > group g usm ann
  > END
  $ snmpsec import-snmpd f | rows
  ! f:1: other: groups
  ! f:2: other: com2sec7
  ! f:3: other: usmUsers
  ! f:4: other: syslocation
  context: context name=""
  f:5: group model=3 name="ann" group="g"

These are the names of hashes.

  $ cat > f <<'END'
  > createUser 0 MD5 maplesyrup
  > createUser 1 SHA maplesyrup
  > createUser 2 SHA-1 maplesyrup
  > createUser 3 SHA1 maplesyrup
  > createUser 4 SHA-224 maplesyrup
  > createUser 5 SHA224 maplesyrup
  > createUser 6 SHA-256 maplesyrup
  > createUser 7 SHA256 maplesyrup
  > createUser 8 SHA-384 maplesyrup
  > createUser 9 SHA384 maplesyrup
  > createUser 10 SHA-512 maplesyrup
  > createUser 11 SHA512 maplesyrup
  > END
  $ snmpsec import-snmpd f | rows
  ! f:5: left out: createUser: no counterpart to its hash, or a key instead of a passphrase
  ! f:6: left out: createUser: no counterpart to its hash, or a key instead of a passphrase
  ! f:9: left out: createUser: no counterpart to its hash, or a key instead of a passphrase
  ! f:10: left out: createUser: no counterpart to its hash, or a key instead of a passphrase
  ! f:11: left out: createUser: no counterpart to its hash, or a key instead of a passphrase
  ! f:12: left out: createUser: no counterpart to its hash, or a key instead of a passphrase
  # f:5: user "4" is left out: no counterpart to its hash, or a key instead of a passphrase
  # f:6: user "5" is left out: no counterpart to its hash, or a key instead of a passphrase
  # f:9: user "8" is left out: no counterpart to its hash, or a key instead of a passphrase
  # f:10: user "9" is left out: no counterpart to its hash, or a key instead of a passphrase
  # f:11: user "10" is left out: no counterpart to its hash, or a key instead of a passphrase
  # f:12: user "11" is left out: no counterpart to its hash, or a key instead of a passphrase
  f:1: user name="0" auth="md5" auth-password="maplesyrup"
  f:2: user name="1" auth="sha1" auth-password="maplesyrup"
  f:3: user name="2" auth="sha1" auth-password="maplesyrup"
  f:4: user name="3" auth="sha1" auth-password="maplesyrup"
  f:7: user name="6" auth="sha256" auth-password="maplesyrup"
  f:8: user name="7" auth="sha256" auth-password="maplesyrup"
  context: context name=""

These are the names of ciphers, and two that aren't.

  $ cat > f <<'END'
  > createUser 0 SHA-512 maplesyrup DES
  > createUser 1 SHA-512 maplesyrup AES
  > createUser 2 SHA-512 maplesyrup AES-128
  > createUser 3 SHA-512 maplesyrup AES128
  > createUser 4 SHA-512 maplesyrup AES-192
  > createUser 5 SHA-512 maplesyrup AES192
  > createUser 6 SHA-512 maplesyrup AES-192-C
  > createUser 7 SHA-512 maplesyrup AES192C
  > createUser 8 SHA-512 maplesyrup AES-256
  > createUser 9 SHA-512 maplesyrup AES256
  > createUser 10 SHA-512 maplesyrup AES-256-C
  > createUser 11 SHA-512 maplesyrup AES256C
  > createUser 12 SHA-512 maplesyrup AES-257
  > createUser 13 SHA-512 maplesyrup AES-128-C
  > END
  $ snmpsec import-snmpd f | rows
  ! f:1: left out: createUser: no counterpart to its hash, or a key instead of a passphrase
  ! f:2: left out: createUser: no counterpart to its hash, or a key instead of a passphrase
  ! f:3: left out: createUser: no counterpart to its hash, or a key instead of a passphrase
  ! f:4: left out: createUser: no counterpart to its hash, or a key instead of a passphrase
  ! f:5: left out: createUser: no counterpart to its hash, or a key instead of a passphrase
  ! f:6: left out: createUser: no counterpart to its hash, or a key instead of a passphrase
  ! f:7: left out: createUser: no counterpart to its hash, or a key instead of a passphrase
  ! f:8: left out: createUser: no counterpart to its hash, or a key instead of a passphrase
  ! f:9: left out: createUser: no counterpart to its hash, or a key instead of a passphrase
  ! f:10: left out: createUser: no counterpart to its hash, or a key instead of a passphrase
  ! f:11: left out: createUser: no counterpart to its hash, or a key instead of a passphrase
  ! f:12: left out: createUser: no counterpart to its hash, or a key instead of a passphrase
  ! f:13: refused by snmpd: createUser: unknown privProtocol
  ! f:14: refused by snmpd: createUser: unknown privProtocol
  # f:1: user "0" is left out: no counterpart to its hash, or a key instead of a passphrase
  # f:2: user "1" is left out: no counterpart to its hash, or a key instead of a passphrase
  # f:3: user "2" is left out: no counterpart to its hash, or a key instead of a passphrase
  # f:4: user "3" is left out: no counterpart to its hash, or a key instead of a passphrase
  # f:5: user "4" is left out: no counterpart to its hash, or a key instead of a passphrase
  # f:6: user "5" is left out: no counterpart to its hash, or a key instead of a passphrase
  # f:7: user "6" is left out: no counterpart to its hash, or a key instead of a passphrase
  # f:8: user "7" is left out: no counterpart to its hash, or a key instead of a passphrase
  # f:9: user "8" is left out: no counterpart to its hash, or a key instead of a passphrase
  # f:10: user "9" is left out: no counterpart to its hash, or a key instead of a passphrase
  # f:11: user "10" is left out: no counterpart to its hash, or a key instead of a passphrase
  # f:12: user "11" is left out: no counterpart to its hash, or a key instead of a passphrase
  context: context name=""
  $ cat > f <<'END'
  > createUser 0 SHA maplesyrup DES secondsyrup
  > createUser 1 SHA maplesyrup AES secondsyrup
  > createUser 2 SHA maplesyrup AES-128 secondsyrup
  > createUser 3 SHA maplesyrup AES128 secondsyrup
  > createUser 4 SHA maplesyrup AES-192 secondsyrup
  > END
  $ snmpsec import-snmpd f | rows
  ! f:1: left out: createUser: no counterpart to its cipher, or a key instead of a passphrase: the user is without privacy
  ! f:5: left out: createUser: no counterpart to its cipher, or a key instead of a passphrase: the user is without privacy
  f:1: user name="0" auth="sha1" auth-password="maplesyrup"
  f:2: user name="1" auth="sha1" auth-password="maplesyrup" priv-password="secondsyrup"
  f:3: user name="2" auth="sha1" auth-password="maplesyrup" priv-password="secondsyrup"
  f:4: user name="3" auth="sha1" auth-password="maplesyrup" priv-password="secondsyrup"
  f:5: user name="4" auth="sha1" auth-password="maplesyrup"
  context: context name=""

The views `_all_` and `_none_` are built in.

  $ cat > f <<'END'
  > view v included .1.3.6
  > access g "" usm auth exact v none none
  > access g a usm auth exact _none_ _none_ _all_
  > group g usm ann
  > END
  $ snmpsec import-snmpd f | rows
  context: context name=""
  f:4: group model=3 name="ann" group="g"
  f:2: access group="g" prefix="" model=3 level="authNoPriv" match="exact" read="v"
  f:3: access group="g" prefix="a" model=3 level="authNoPriv" match="exact" read="_none_" write="_none_" notify="_all_"
  f:1: family view="v" subtree="1.3.6" include=true
  built in: family view="_all_" subtree="0" include=true
  built in: family view="_all_" subtree="1" include=true
  built in: family view="_all_" subtree="2" include=true
  built in: family view="_none_" subtree="0" include=false
  built in: family view="_none_" subtree="1" include=false
  built in: family view="_none_" subtree="2" include=false
