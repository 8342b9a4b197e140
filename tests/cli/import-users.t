Lines `createUser` of snmpd.conf. The expected users and faults are net-snmp 5.9.3's.

A prefix of a hash's name is enough, in either case. SHA-224, SHA-384 and SHA-512 have no
counterpart here.

  $ cat > f <<'END'
  > createUser a
  > createUser h0 N maplesyrup
  > createUser h1 S maplesyrup
  > createUser h2 sHa- maplesyrup
  > createUser h3 M maplesyrup
  > createUser h4 SHA-2 maplesyrup
  > createUser h5 sha2 maplesyrup
  > createUser h6 SHA-25 maplesyrup
  > createUser h7 SHA3 maplesyrup
  > createUser h8 SHA5 maplesyrup
  > createUser h9 SHA-2566 maplesyrup
  > createUser h10 XX maplesyrup
  > END
  $ snmpsec import-snmpd f | rows
  ! f:2: refused by snmpd: createUser: could not generate the authentication key from the supplied pass phrase
  ! f:6: left out: createUser: no counterpart to its hash, or a key instead of a passphrase
  ! f:7: left out: createUser: no counterpart to its hash, or a key instead of a passphrase
  ! f:9: left out: createUser: no counterpart to its hash, or a key instead of a passphrase
  ! f:10: left out: createUser: no counterpart to its hash, or a key instead of a passphrase
  ! f:11: refused by snmpd: createUser: unknown authProtocol
  ! f:12: refused by snmpd: createUser: unknown authProtocol
  # f:6: user "h4" is left out: no counterpart to its hash, or a key instead of a passphrase
  # f:7: user "h5" is left out: no counterpart to its hash, or a key instead of a passphrase
  # f:9: user "h7" is left out: no counterpart to its hash, or a key instead of a passphrase
  # f:10: user "h8" is left out: no counterpart to its hash, or a key instead of a passphrase
  f:1: user name="a"
  f:3: user name="h1" auth="sha1" auth-password="maplesyrup"
  f:4: user name="h2" auth="sha1" auth-password="maplesyrup"
  f:5: user name="h3" auth="md5" auth-password="maplesyrup"
  f:8: user name="h6" auth="sha256" auth-password="maplesyrup"
  context: context name=""

Of three users of a name the last counts.

  $ cat > f <<'END'
  > createUser ann MD5 maplesyrup
  > createUser ann SHA maplesyrup
  > createUser ann SHA-256 maplesyrup
  > END
  $ snmpsec import-snmpd f | rows
  ! f:1: ignored: createUser: the row of f:3 has the same index
  ! f:2: ignored: createUser: the row of f:3 has the same index
  f:3: user name="ann" auth="sha256" auth-password="maplesyrup"
  context: context name=""

An empty name of a hash means none, and then no key can be made.

  $ cat > f <<'END'
  > createUser a ''
  > createUser b N
  > createUser c '' maplesyrup
  > END
  $ snmpsec import-snmpd f | rows
  ! f:1: undefined: createUser: a passphrase is missing
  ! f:2: undefined: createUser: a passphrase is missing
  ! f:3: refused by snmpd: createUser: could not generate the authentication key from the supplied pass phrase
  context: context name=""

SHA-224 makes keys of 28 octets, SHA-384 and SHA-512 of 48 and 64. AES-256 needs 32.

  $ cat > f <<'END'
  > createUser a SHA-2 maplesyrup AES-256
  > createUser b SHA-25 maplesyrup AES-256
  > createUser c sha2 maplesyrup AES-192
  > createUser d SHA3 maplesyrup AES-256
  > createUser e SHA5 maplesyrup AES-256
  > END
  $ snmpsec import-snmpd f | rows
  ! f:1: refused by snmpd: createUser: privKey length is less than required by privProtocol
  ! f:2: left out: createUser: no counterpart to its cipher, or a key instead of a passphrase: the user is without privacy
  ! f:3: left out: createUser: no counterpart to its hash, or a key instead of a passphrase
  ! f:4: left out: createUser: no counterpart to its hash, or a key instead of a passphrase
  ! f:5: left out: createUser: no counterpart to its hash, or a key instead of a passphrase
  # f:3: user "c" is left out: no counterpart to its hash, or a key instead of a passphrase
  # f:4: user "d" is left out: no counterpart to its hash, or a key instead of a passphrase
  # f:5: user "e" is left out: no counterpart to its hash, or a key instead of a passphrase
  f:2: user name="b" auth="sha256" auth-password="maplesyrup"
  context: context name=""

A prefix of a cipher's name is enough, in either case. Only AES-128 has a counterpart here.

  $ cat > f <<'END'
  > createUser c0 SHA maplesyrup NO secondsyrup
  > createUser c1 SHA maplesyrup D secondsyrup
  > createUser c2 SHA maplesyrup A secondsyrup
  > createUser c3 SHA maplesyrup aes1 secondsyrup
  > createUser c4 SHA maplesyrup AES-19 secondsyrup
  > createUser c5 SHA maplesyrup AES-192-C secondsyrup
  > createUser c6 SHA maplesyrup AES-256 secondsyrup
  > createUser c7 SHA maplesyrup AES256C secondsyrup
  > createUser c8 SHA maplesyrup AES128C secondsyrup
  > createUser c9 SHA maplesyrup 3DES secondsyrup
  > createUser c10 SHA maplesyrup DES12 secondsyrup
  > createUser c SHA maplesyrup '' secondsyrup
  > END
  $ snmpsec import-snmpd f | rows
  ! f:2: left out: createUser: no counterpart to its cipher, or a key instead of a passphrase: the user is without privacy
  ! f:5: left out: createUser: no counterpart to its cipher, or a key instead of a passphrase: the user is without privacy
  ! f:6: left out: createUser: no counterpart to its cipher, or a key instead of a passphrase: the user is without privacy
  ! f:7: left out: createUser: no counterpart to its cipher, or a key instead of a passphrase: the user is without privacy
  ! f:8: left out: createUser: no counterpart to its cipher, or a key instead of a passphrase: the user is without privacy
  ! f:9: refused by snmpd: createUser: unknown privProtocol
  ! f:10: refused by snmpd: createUser: unknown privProtocol
  ! f:11: refused by snmpd: createUser: unknown privProtocol
  f:1: user name="c0" auth="sha1" auth-password="maplesyrup"
  f:2: user name="c1" auth="sha1" auth-password="maplesyrup"
  f:3: user name="c2" auth="sha1" auth-password="maplesyrup" priv-password="secondsyrup"
  f:4: user name="c3" auth="sha1" auth-password="maplesyrup" priv-password="secondsyrup"
  f:5: user name="c4" auth="sha1" auth-password="maplesyrup"
  f:6: user name="c5" auth="sha1" auth-password="maplesyrup"
  f:7: user name="c6" auth="sha1" auth-password="maplesyrup"
  f:8: user name="c7" auth="sha1" auth-password="maplesyrup"
  f:12: user name="c" auth="sha1" auth-password="maplesyrup"
  context: context name=""

Without its own passphrase the cipher uses the key of the hash. SHA makes 20 octets, AES-192 needs
24, and AES-256 32.

  $ cat > f <<'END'
  > createUser c0 SHA maplesyrup D
  > createUser c1 SHA maplesyrup A
  > createUser c2 SHA maplesyrup aes1
  > createUser c3 SHA maplesyrup AES-19
  > createUser c4 SHA maplesyrup AES-192-C
  > createUser c5 SHA maplesyrup AES-256
  > createUser c6 SHA maplesyrup AES256C
  > END
  $ snmpsec import-snmpd f | rows
  ! f:1: left out: createUser: no counterpart to its cipher, or a key instead of a passphrase: the user is without privacy
  ! f:4: refused by snmpd: createUser: privKey length is less than required by privProtocol
  ! f:5: refused by snmpd: createUser: privKey length is less than required by privProtocol
  ! f:6: refused by snmpd: createUser: privKey length is less than required by privProtocol
  ! f:7: refused by snmpd: createUser: privKey length is less than required by privProtocol
  f:1: user name="c0" auth="sha1" auth-password="maplesyrup"
  f:2: user name="c1" auth="sha1" auth-password="maplesyrup" priv-password="maplesyrup"
  f:3: user name="c2" auth="sha1" auth-password="maplesyrup" priv-password="maplesyrup"
  context: context name=""

SHA-224 makes 28 octets.

  $ cat > f <<'END'
  > createUser c0 SHA-224 maplesyrup D
  > createUser c1 SHA-224 maplesyrup A
  > createUser c2 SHA-224 maplesyrup aes1
  > createUser c3 SHA-224 maplesyrup AES-19
  > createUser c4 SHA-224 maplesyrup AES-192-C
  > createUser c5 SHA-224 maplesyrup AES-256
  > createUser c6 SHA-224 maplesyrup AES256C
  > END
  $ snmpsec import-snmpd f | rows
  ! f:1: left out: createUser: no counterpart to its hash, or a key instead of a passphrase
  ! f:2: left out: createUser: no counterpart to its hash, or a key instead of a passphrase
  ! f:3: left out: createUser: no counterpart to its hash, or a key instead of a passphrase
  ! f:4: left out: createUser: no counterpart to its hash, or a key instead of a passphrase
  ! f:5: left out: createUser: no counterpart to its hash, or a key instead of a passphrase
  ! f:6: refused by snmpd: createUser: privKey length is less than required by privProtocol
  ! f:7: refused by snmpd: createUser: privKey length is less than required by privProtocol
  # f:1: user "c0" is left out: no counterpart to its hash, or a key instead of a passphrase
  # f:2: user "c1" is left out: no counterpart to its hash, or a key instead of a passphrase
  # f:3: user "c2" is left out: no counterpart to its hash, or a key instead of a passphrase
  # f:4: user "c3" is left out: no counterpart to its hash, or a key instead of a passphrase
  # f:5: user "c4" is left out: no counterpart to its hash, or a key instead of a passphrase
  context: context name=""

Without a second passphrase the first one is used twice.

  $ cat > f <<'END'
  > createUser ann SHA maplesyrup AES # a comment
  > END
  $ snmpsec import-snmpd f | rows
  f:1: user name="ann" auth="sha1" auth-password="maplesyrup" priv-password="maplesyrup"
  context: context name=""

Words may be quoted. What follows them is ignored.

  $ cat > f <<'END'
  > createUser ann 'SHA-256' "maple syrup" aes128 secondsyrup more
  > END
  $ snmpsec import-snmpd f | rows
  f:1: user name="ann" auth="sha256" auth-password="maple syrup" priv-password="secondsyrup"
  context: context name=""

A word that begins with `default` selects the default protocol.

  $ cat > f <<'END'
  > createUser -M ann XX defaultpass defaultAES secondsyrup
  > END
  $ snmpsec import-snmpd f | rows
  ! f:1: left out: createUser: no counterpart to its cipher, or a key instead of a passphrase: the user is without privacy
  f:1: user name="ann" auth="md5" auth-password="defaultpass"
  context: context name=""

A quoted passphrase selects no default.

  $ cat > f <<'END'
  > createUser ann S "defaultpass" N
  > END
  $ snmpsec import-snmpd f | rows
  f:1: user name="ann" auth="sha1" auth-password="defaultpass"
  context: context name=""
  $ cat > f <<'END'
  > createUser ann SHA-224 maplesyrup AES-192
  > createUser bob MD5 maplesyrup AES-256 secondsyrup
  > END
  $ snmpsec import-snmpd f | rows
  ! f:1: left out: createUser: no counterpart to its hash, or a key instead of a passphrase
  ! f:2: left out: createUser: no counterpart to its cipher, or a key instead of a passphrase: the user is without privacy
  # f:1: user "ann" is left out: no counterpart to its hash, or a key instead of a passphrase
  f:2: user name="bob" auth="md5" auth-password="maplesyrup"
  context: context name=""

A user may have no passphrase. One with a key instead of a passphrase is left out.

  $ cat > f <<'END'
  > createUser -M
  > createUser ann SHA -l 0x1234 AES secondsyrup
  > END
  $ snmpsec import-snmpd f | rows
  ! f:2: left out: createUser: no counterpart to its hash, or a key instead of a passphrase
  # f:2: user "ann" is left out: no counterpart to its hash, or a key instead of a passphrase
  f:1: user name="-M"
  context: context name=""

A wrong line makes no user.

  $ cat > f <<'END'
  > createUser ann SHA
  > createUser ann SHA # none
  > createUser ann XX maplesyrup
  > createUser ann N maplesyrup
  > createUser ann SHA short
  > createUser ann SHA maplesyrup XOR
  > createUser ann SHA maplesyrup NOPRIV short
  > createUser ann SHA maplesyrup AES ""
  > createUser ann SHA maplesyrup AES-192
  > createUser ann MD5 maplesyrup AES-256-C
  > createUser -e 0x8000000001 ann SHA maplesyrup
  > createUser -e 0x8000000001 ann SHA short
  > END
  $ snmpsec import-snmpd f | rows
  ! f:1: undefined: createUser: a passphrase is missing
  ! f:2: undefined: createUser: a passphrase is missing
  ! f:3: refused by snmpd: createUser: unknown authProtocol
  ! f:4: refused by snmpd: createUser: could not generate the authentication key from the supplied pass phrase
  ! f:5: refused by snmpd: createUser: could not generate the authentication key from the supplied pass phrase
  ! f:6: refused by snmpd: createUser: unknown privProtocol
  ! f:7: refused by snmpd: createUser: could not generate the privacy key from the supplied pass phrase
  ! f:8: refused by snmpd: createUser: could not generate the privacy key from the supplied pass phrase
  ! f:9: refused by snmpd: createUser: privKey length is less than required by privProtocol
  ! f:10: refused by snmpd: createUser: privKey length is less than required by privProtocol
  ! f:11: left out: createUser: a user of one engine alone
  ! f:12: refused by snmpd: createUser: could not generate the authentication key from the supplied pass phrase
  # f:11: user "ann" is left out: a user of one engine alone
  context: context name=""
