`snmpsec open`: messages that are refused.

The message with a salt of 7 octets and those after it were made with Python's hmac and hashlib.

`ann`, `bob` and `sam` have passwords, `eve` has none, and there is no user `any`.

  $ cat > users <<'END'
  > [[user]]
  > name = 'ann'
  > auth = 'md5'
  > auth-password = 'maplesyrup'
  > priv-password = 'maplesyrup'
  > [[user]]
  > name = 'bob'
  > auth = 'sha1'
  > auth-password = 'maplesyrup'
  > priv-password = 'maplesyrup'
  > [[user]]
  > name = 'sam'
  > auth = 'sha256'
  > auth-password = 'maplesyrup'
  > priv-password = 'maplesyrup'
  > [[user]]
  > name = 'eve'
  > END

The last octet is missing.

  $ snmpsec open users 3038020103300e020101020300ffe30401040201030410300e0400020100020100040004000400301104000400a\
  > 00b02010102010002010030
  refused 1 NotMessage at 0
  [1]

msgVersion is 1.

  $ snmpsec open users 3038020101300e020101020300ffe30401040201030410300e0400020100020100040004000400301104000400a\
  > 00b0201010201000201003000
  refused 2 BadVersion
  [1]

Another security model is reported before priv without auth.

  $ snmpsec open users 3038020103300e020101020300ffe30401020201020410300e0400020100020100040004000400301104000400a\
  > 00b0201010201000201003000
  refused 17 UnknownModel
  [1]

msgFlags has priv without auth.

  $ snmpsec open users 3038020103300e020101020300ffe30401020201030410300e0400020100020100040004000400301104000400a\
  > 00b0201010201000201003000
  refused 18 InvalidFlags
  [1]

msgData is an OCTET STRING: this is reported before negative boots.

  $ snmpsec open users 3038020103300e020101020300ffe30401040201030410300e04000201ff020100040004000400041104000400a\
  > 00b0201010201000201003000
  refused 4 NotScoped at 39
  [1]

The boots of the engine are negative.

  $ snmpsec open users 3038020103300e020101020300ffe30401040201030410300e04000201ff020100040004000400301104000400a\
  > 00b0201010201000201003000
  refused 3 NotSecurity at 27
  [1]

The message has no engine ID.

  $ snmpsec open users 3038020103300e020101020300ffe30401040201030410300e0400020100020100040004000400301104000400a\
  > 00b0201010201000201003000
  refused 6 UnknownEngine
  [1]

There is no such user.

  $ snmpsec open users 307d0201033011020470c13f84020300ffe30401050201030430302e041180001f8880c932472d51b8036b00000\
  > 0000201010201030403616e79040c569f7fd277fcaeb763c0986b04003033041180001f8880c932472d51b8036b000000000400a01c020\
  > 4336c3f7f020100020100300e300c06082b060102010105000500
  refused 7 UnknownUser
  [1]

`eve` has no password, and the message is authenticated.

  $ snmpsec open users 307d0201033011020470c13f84020300ffe30401050201030430302e041180001f8880c932472d51b8036b00000\
  > 0000201010201030403657665040c569f7fd277fcaeb763c0986b04003033041180001f8880c932472d51b8036b000000000400a01c020\
  > 4336c3f7f020100020100300e300c06082b060102010105000500
  refused 8 UnsupportedLevel
  [1]

The captured message has the MAC of another password.

  $ snmpsec open users 307d02010330110204402b4fbc020300ffe30401050201030430302e041180001f8880c932472d51b8036b00000\
  > 0000201010201030403626f62040c46d2de792dd727a291b662c304003033041180001f8880c932472d51b8036b000000000400a01c020\
  > 4441df878020100020100300e300c06082b060102010105000500
  refused 9 WrongDigest
  [1]

The last octet of the encrypted text was changed.

  $ snmpsec open users 30818e020103301102047eea904d020300ffe304010302010304383036041180001f8880c932472d51b8036b000\
  > 000000201010201030403626f62040c40c9c8ec6f7a59be53e37eb104084d468aed2b6eb442043c01525859852fe1f97c2d47fe5fc263d\
  > 5eb1b56b0d1e3a94c1de579868252314b02b96d29f90994917f03d7544adcefe9491fea2218da00560f724477
  refused 9 WrongDigest
  [1]

The salt has 7 octets.

  $ snmpsec open users 3052020103300e020103020300ffe304010702010304333031040c000000000000000000000002020107020203e\
  > 80403616e6e040c50924ed468d6335990d6c67d04070001020304050604080000000000000000
  refused 11 DecryptionError
  [1]

The encrypted part is empty.

  $ snmpsec open users 304b020103300e020103020300ffe304010702010304343032040c000000000000000000000002020107020203e\
  > 80403616e6e040c8ac0d63674a7a2f775293007040800010203040506070400
  refused 12 BadScoped at 0
  [1]

The data of the encrypted scoped PDU isn't a PDU.

  $ snmpsec open users 306a020103300e020103020300ffe304010702010304343032040c000000000000000000000002020107020203e\
  > 80403616e6e040cf69d8a15ac01917d601bb1ad04080001020304050607041f14306cfde49e840908ec2a30e037517efaa14c748e0879a\
  > 1c4c9a491d2fa5b
  refused 13 BadPdu at 18
  [1]

The data of the plain scoped PDU isn't a PDU.

  $ snmpsec open users 3060020103300e020103020300ffe3040105020103042c302a040c000000000000000000000002020107020203e\
  > 80403616e6e040c4b7ba61408d03683ab69a2960400301d040c0000000000000000000000020400a40b0201020201000201003000
  refused 13 BadPdu at 85
  [1]

Other passwords don't open the message of `bob`.

  $ message=30818e020103301102047eea904d020300ffe304010302010304383036041180001f8880c932472d51b8036b00000000020101\
  > 0201030403626f62040c40c9c8ec6f7a59be53e37eb104084d468aed2b6eb442043c01525859852fe1f97c2d47fe5fc263d5eb1b56b0d1\
  > e3a94c1de579868252314b02b96d29f90994917f03d7544adcefe9491fea2218da00560f724476
  $ cat > bob <<'END'
  > [[user]]
  > name = 'bob'
  > auth = 'sha1'
  > auth-password = 'maplesyrup'
  > priv-password = 'oaktreepass'
  > END
  $ snmpsec open bob "$message"
  refused 12 BadScoped at 0
  [1]
  $ cat > bob <<'END'
  > [[user]]
  > name = 'bob'
  > auth = 'sha1'
  > auth-password = 'oaktreepass'
  > priv-password = 'maplesyrup'
  > END
  $ snmpsec open bob "$message"
  refused 9 WrongDigest
  [1]
  $ cat > bob <<'END'
  > [[user]]
  > name = 'bob'
  > auth = 'md5'
  > auth-password = 'maplesyrup'
  > priv-password = 'maplesyrup'
  > END
  $ snmpsec open bob "$message"
  refused 9 WrongDigest
  [1]
  $ cat > bob <<'END'
  > [[user]]
  > name = 'bob'
  > auth = 'sha1'
  > auth-password = 'maplesyrup'
  > END
  $ snmpsec open bob "$message"
  refused 8 UnsupportedLevel
  [1]
  $ cat > bob <<'END'
  > [[user]]
  > name = 'bob'
  > auth = 'sha1'
  > auth-password = 'maple'
  > END
  $ snmpsec open bob "$message"
  refused config user 0 ShortPassword
  [1]

HEX is checked before the configuration.

  $ echo 'user = 1' > config
  $ snmpsec open config ''
  ! snmpsec: bad word HEX
  [2]
  $ snmpsec open config 3
  ! snmpsec: bad word HEX
  [2]
  $ snmpsec open config 3g
  ! snmpsec: bad word HEX
  [2]
  $ snmpsec open config '30 38'
  ! snmpsec: bad word HEX
  [2]
  $ snmpsec open config 30
  refused config top
  [1]

A user supports the levels for which it has passwords. These messages have wrong MACs, which are
reported if the level is supported.

  $ cat > config <<'END'
  > [[user]]
  > name = 'ann'
  > auth = 'sha1'
  > auth-password = 'maplesyrup'
  > priv-password = 'maplesyrup'
  > [[user]]
  > name = 'bob'
  > auth = 'md5'
  > auth-password = 'maplesyrup'
  > [[user]]
  > name = 'sam'
  > auth = 'sha256'
  > auth-password = 'maplesyrup'
  > priv-password = 'maplesyrup'
  > [[user]]
  > name = 'eve'
  > [[context]]
  > name = 'here'
  > [[group]]
  > model = 2147483647
  > name = 'ann'
  > group = 'g'
  > [[access]]
  > group = 'g'
  > prefix = 'here'
  > model = 0
  > level = 'authPriv'
  > match = 'exact'
  > read = ''
  > write = 'v'
  > notify = 'w'
  > [[family]]
  > view = 'v'
  > subtree = '1.3.6'
  > mask = 'bF'
  > include = true
  > [[family]]
  > view = 'w'
  > subtree = '1.3.6'
  > mask = ''
  > include = true
  > END

`ann` supports privacy.

  $ snmpsec open config 3053020103300e020101020300ffe3040107020103042c302a040580000000010201010201010403616e6e040c\
  > 00000000000000000000000004080000000000000000041000000000000000000000000000000000
  refused 9 WrongDigest
  [1]

`bob` supports authentication.

  $ snmpsec open config 304c020103300e020101020300ffe304010502010304243022040580000000010201010201010403626f62040c\
  > 0000000000000000000000000400301104000400a00b0201010201000201003000
  refused 9 WrongDigest
  [1]

`bob` has no password for privacy.

  $ snmpsec open config 3053020103300e020101020300ffe3040107020103042c302a040580000000010201010201010403626f62040c\
  > 00000000000000000000000004080000000000000000041000000000000000000000000000000000
  refused 8 UnsupportedLevel
  [1]

`eve` has no password.

  $ snmpsec open config 304c020103300e020101020300ffe304010502010304243022040580000000010201010201010403657665040c\
  > 0000000000000000000000000400301104000400a00b0201010201000201003000
  refused 8 UnsupportedLevel
  [1]

`Ann` isn't `ann`.

  $ snmpsec open config 3040020103300e020101020300ffe304010402010304183016040580000000010201010201010403416e6e0400\
  > 0400301104000400a00b0201010201000201003000
  refused 7 UnknownUser
  [1]

Without authentication `eve` is accepted.

  $ snmpsec open config 3040020103300e020101020300ffe3040104020103041830160405800000000102010102010104036576650400\
  > 0400301104000400a00b0201010201000201003000
  id 1
  max-size 65507
  flags reportable
  engine 8000000001
  boots 1
  time 1
  user 657665
  auth -
  privacy -
  level noAuthNoPriv
  context-engine -
  context -
  pdu a0 1 0 0
