`show --community`: messages of version-1 and SNMPv2c. The messages are those of net-snmp 5.9.3's `snmpget -d`,
`snmptrap -d` and `snmpd`.

A GetRequest of SNMPv2c, and its Response.

  $ REQUEST=302902010104067075626c6963a01c020406d8ef4c020100020100300e300c06082b060102010105000500
  $ RESPONSE=303102010104067075626c6963a224020406d8ef4c0201000201003016301406082b060102010105000408726f757465722d37
  $ snmpsec show --community $REQUEST
  version SNMPv2c
  community 7075626c6963
  pdu a0 114880332 0 0
  binding 1.3.6.1.2.1.1.5.0 05 -
  $ snmpsec show --community --names $RESPONSE
  version SNMPv2c
  community 7075626c6963 # "public"
  pdu a2 114880332 0 0 # Response
  binding 1.3.6.1.2.1.1.5.0 04 726f757465722d37

Without the option the version is refused.

  $ snmpsec show $REQUEST
  refused 2 BadVersion
  [1]

A Response of version-1.

  $ snmpsec show --community 303102010004067075626c6963a22402040f5846020201000201003016301406082b060102010105000408726f757465722d37
  version SNMPv1
  community 7075626c6963
  pdu a2 257443330 0 0
  binding 1.3.6.1.2.1.1.5.0 04 726f757465722d37

A Trap-PDU of version-1 has another layout than the PDUs of RFC 3416.

  $ snmpsec show --community 302702010004067075626c6963a41a06072b06010401bf0840040a0000010201060201014301373000
  refused 5 NotPdu at 13
  [1]

A message of SNMPv3 is printed as without the option.

  $ V3=3038020103300e020101020300ffe30401040201030410300e0400020100020100040004000400301104000400a00b0201010201000201003000
  $ snmpsec show $V3 > without
  $ snmpsec show --community $V3 | cmp - without

So is a version that nobody knows, and what is no message at all.

  $ snmpsec show --community 3003020102
  refused 2 BadVersion
  [1]
  $ snmpsec show 3003020102
  refused 2 BadVersion
  [1]
  $ snmpsec show --community 3000
  refused 1 NotMessage at 2
  [1]
  $ snmpsec show --community 0500
  refused 1 NotMessage at 0
  [1]

The place of a refusal is that of the octet: no community, no PDU, octets after the PDU, octets after the message.

  $ snmpsec show --community 3003020101
  refused 1 NotMessage at 5
  [1]
  $ snmpsec show --community 30050201010400
  refused 1 NotMessage at 7
  [1]
  $ snmpsec show --community 3009020101040005000500
  refused 1 NotMessage at 9
  [1]
  $ snmpsec show --community ${REQUEST}00
  refused 1 NotMessage at 43
  [1]
  $ snmpsec show --community --why 302902010104067075
  refused 1 NotMessage at 0
  ! snmpsec: the message says 43 octets, and 9 are there
  [1]

A PDU that can't be read.

  $ snmpsec show --community 300702010104000500
  refused 5 NotPdu at 7
  [1]

The community isn't text, or is empty.

  $ snmpsec show --community --names 30140201010402ff00a00b0201010201000201003000
  version SNMPv2c
  community ff00
  pdu a0 1 0 0 # GetRequest
  $ snmpsec show --community --names 30120201010400a00b0201010201000201003000
  version SNMPv2c
  community -
  pdu a0 1 0 0 # GetRequest

The datagrams of a file: dumps of the two messages, and of one of SNMPv3.

  $ for hex in $REQUEST $RESPONSE $V3; do echo $hex | unhex | od -A x -t x1 -v; done > f
  $ snmpsec show --community --names --moment 1700000000 --from f > shown
  $ grep '^datagram\|^version\|^community\|^id\|^pdu' shown
  datagram 1 1700000000
  version SNMPv2c
  community 7075626c6963 # "public"
  pdu a0 114880332 0 0 # GetRequest
  datagram 2 1700000000
  version SNMPv2c
  community 7075626c6963 # "public"
  pdu a2 114880332 0 0 # Response
  datagram 3 1700000000
  id 1
  pdu a0 1 0 0 # GetRequest
  $ snmpsec show --moment 1700000000 --from f | grep '^datagram\|^refused\|^id'
  datagram 1 1700000000
  refused 2 BadVersion
  datagram 2 1700000000
  refused 2 BadVersion
  datagram 3 1700000000
  id 1

The option is for show alone.

  $ snmpsec open --community config.toml $REQUEST > /dev/null 2>&1
  [2]
