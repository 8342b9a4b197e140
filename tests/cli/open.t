`snmpsec open`: a message is authenticated and decrypted by the users of a configuration.

The messages of the engine 8000.. are net-snmp's, as examples/replay has them. The others, and all
expected texts, were made with Python's hmac and hashlib and a cipher of their own.

`ann`, `bob` and `sam` have passwords, `eve` has none, and there is no user `any`.

  $ cat > users <<'END'
  > [[user]]
  > name = 'ann'
  > auth = 'md5'
  > auth-password = 'maplesyrup'
  > priv-password = 'maplesyrup'
  > [[user]]
  > name = 'bob'
  > auth = 'sha1'
  > auth-password = 'maplesyrup'
  > priv-password = 'maplesyrup'
  > [[user]]
  > name = 'sam'
  > auth = 'sha256'
  > auth-password = 'maplesyrup'
  > priv-password = 'maplesyrup'
  > [[user]]
  > name = 'eve'
  > END

The answer to a discovery has no user.

  $ snmpsec open users 307102010330110204679d6a8d020300ffe30401000201030421301f041180001f8880c932472d51b8036b00000\
  > 0000201010201030400040004003036041180001f8880c932472d51b8036b000000000400a81f020408e4e6f10201000201003011300f0\
  > 60a2b060106030f01010400410101
  id 1738369677
  max-size 65507
  flags -
  engine 80001f8880c932472d51b8036b00000000
  boots 1
  time 3
  user -
  auth -
  privacy -
  level noAuthNoPriv
  context-engine 80001f8880c932472d51b8036b00000000
  context -
  pdu a8 149219057 0 0
  binding 1.3.6.1.6.3.15.1.1.4.0 41 01

`ann` sends without authentication.

  $ snmpsec open users 307802010330110204679d6a8c020300ffe304010002010304243022041180001f8880c932472d51b8036b00000\
  > 0000201010201030403616e6e04000400303a041180001f8880c932472d51b8036b000000000400a223020408e4e6f0020100020100301\
  > 5301306082b0601020101050004076578616d706c65
  id 1738369676
  max-size 65507
  flags -
  engine 80001f8880c932472d51b8036b00000000
  boots 1
  time 3
  user 616e6e
  auth -
  privacy -
  level noAuthNoPriv
  context-engine 80001f8880c932472d51b8036b00000000
  context -
  pdu a2 149219056 0 0
  binding 1.3.6.1.2.1.1.5.0 04 6578616d706c65

`ann` authenticates with MD5.

  $ snmpsec open users 3081840201033011020470c13f84020300ffe30401010201030430302e041180001f8880c932472d51b8036b000\
  > 000000201010201030403616e6e040c13186eafed8060476e0668000400303a041180001f8880c932472d51b8036b000000000400a2230\
  > 204336c3f7f0201000201003015301306082b0601020101050004076578616d706c65
  id 1891712900
  max-size 65507
  flags auth
  engine 80001f8880c932472d51b8036b00000000
  boots 1
  time 3
  user 616e6e
  auth 13186eafed8060476e066800
  privacy -
  level authNoPriv
  context-engine 80001f8880c932472d51b8036b00000000
  context -
  pdu a2 862732159 0 0
  binding 1.3.6.1.2.1.1.5.0 04 6578616d706c65

`bob` encrypts with a key of SHA-1: a request, and the answer to it.

  $ snmpsec open users 308187020103301102047eea904d020300ffe304010702010304383036041180001f8880c932472d51b8036b000\
  > 000000201010201030403626f62040cba873c677947882121b1dd4c0408abc5f185509b07530435e7eb31461c6df10ebd2e07d3aa95942\
  > 47def3bfae2e8ddbb01c275078b8a30e2c65bde4b1f5e25f3775bd3fbb5e7ccdfa547fad61d
  id 2129301581
  max-size 65507
  flags auth priv reportable
  engine 80001f8880c932472d51b8036b00000000
  boots 1
  time 3
  user 626f62
  auth ba873c677947882121b1dd4c
  privacy abc5f185509b0753
  level authPriv
  context-engine 80001f8880c932472d51b8036b00000000
  context -
  pdu a0 241263750 0 0
  binding 1.3.6.1.2.1.1.5.0 05 -
  $ snmpsec open users 30818e020103301102047eea904d020300ffe304010302010304383036041180001f8880c932472d51b8036b000\
  > 000000201010201030403626f62040c40c9c8ec6f7a59be53e37eb104084d468aed2b6eb442043c01525859852fe1f97c2d47fe5fc263d\
  > 5eb1b56b0d1e3a94c1de579868252314b02b96d29f90994917f03d7544adcefe9491fea2218da00560f724476
  id 2129301581
  max-size 65507
  flags auth priv
  engine 80001f8880c932472d51b8036b00000000
  boots 1
  time 3
  user 626f62
  auth 40c9c8ec6f7a59be53e37eb1
  privacy 4d468aed2b6eb442
  level authPriv
  context-engine 80001f8880c932472d51b8036b00000000
  context -
  pdu a2 241263750 0 0
  binding 1.3.6.1.2.1.1.5.0 04 6578616d706c65

`sam` encrypts with a key of SHA-256.

  $ snmpsec open users 30819a0201033011020416c69b07020300ffe304010302010304443042041180001f8880c932472d51b8036b000\
  > 00000020101020103040373616d0418b2f385014b0eba004562e0c61752ea2bdda4499bc08d51ad04084d468aed2b6eb443043cce41b8d\
  > 8cbdc15f6fceaa93a8ab9392544436a2255d182eace34f6062344f7c27826a13ecaa8ca2752654acbd741ed7e458a742b2158f2da09967\
  > 6b7
  id 382114567
  max-size 65507
  flags auth priv
  engine 80001f8880c932472d51b8036b00000000
  boots 1
  time 3
  user 73616d
  auth b2f385014b0eba004562e0c61752ea2bdda4499bc08d51ad
  privacy 4d468aed2b6eb443
  level authPriv
  context-engine 80001f8880c932472d51b8036b00000000
  context -
  pdu a2 1416612862 0 0
  binding 1.3.6.1.2.1.1.5.0 04 6578616d706c65

Five octets come after the encrypted scoped PDU of `ann`.

  $ snmpsec open users 306f020103300e020103020300ffe304010702010304343032040c000000000000000000000002020107020203e\
  > 80403616e6e040c5c1588d4e04095d36d85ab9b04080001020304050607042414306cfde49e840908ec2a30e037517efaa148748e0879a\
  > 1c4c9a491d2fa5b095c5cbe59
  id 3
  max-size 65507
  flags auth priv reportable
  engine 000000000000000000000002
  boots 7
  time 1000
  user 616e6e
  auth 5c1588d4e04095d36d85ab9b
  privacy 0001020304050607
  level authPriv
  context-engine 000000000000000000000002
  context -
  pdu a0 2 0 0
