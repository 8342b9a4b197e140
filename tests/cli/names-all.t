All names that `show --names` knows.

A PDU has the name of its type.

  $ message=3038020103300e020101020300ffe30401040201030410300e0400020100020100040004000400301104000400a00b02010102\
  > 01000201003000
  $ for tag in a0 a1 a2 a3 a5 a6 a7 a8
  > do
  >   snmpsec show --names $(echo $message | sed "s/a00b/${tag}0b/") | grep pdu
  > done
  pdu a0 1 0 0 # GetRequest
  pdu a1 1 0 0 # GetNextRequest
  pdu a2 1 0 0 # Response
  pdu a3 1 0 0 # SetRequest
  pdu a5 1 0 0 # GetBulkRequest
  pdu a6 1 0 0 # InformRequest
  pdu a7 1 0 0 # SNMPv2-Trap
  pdu a8 1 0 0 # Report

Each counter of a report has its name and its value.

  $ cat > report <<'END'
  > 3081f4020103300e020101020300ffe30401040201030410300e04000201000201000400040004003081cc04000400a8
  > 81c50201010201000201003081b9300f060a2b060106030f01010100410101300f060a2b060106030f01010200410102
  > 300f060a2b060106030f01010300410103300f060a2b060106030f01010400410104300f060a2b060106030f01010500
  > 410105300f060a2b060106030f01010600410106300f060a2b060106030b02010100410107300f060a2b060106030b02
  > 010200410108300f060a2b060106030b02010300410109300e06092b060106030c01040041010a300e06092b06010603
  > 0c01050041010b
  > END
  $ snmpsec show --names --from report | grep binding
  binding 1.3.6.1.6.3.15.1.1.1.0 41 01 # usmStatsUnsupportedSecLevels 1
  binding 1.3.6.1.6.3.15.1.1.2.0 41 02 # usmStatsNotInTimeWindows 2
  binding 1.3.6.1.6.3.15.1.1.3.0 41 03 # usmStatsUnknownUserNames 3
  binding 1.3.6.1.6.3.15.1.1.4.0 41 04 # usmStatsUnknownEngineIDs 4
  binding 1.3.6.1.6.3.15.1.1.5.0 41 05 # usmStatsWrongDigests 5
  binding 1.3.6.1.6.3.15.1.1.6.0 41 06 # usmStatsDecryptionErrors 6
  binding 1.3.6.1.6.3.11.2.1.1.0 41 07 # snmpUnknownSecurityModels 7
  binding 1.3.6.1.6.3.11.2.1.2.0 41 08 # snmpInvalidMsgs 8
  binding 1.3.6.1.6.3.11.2.1.3.0 41 09 # snmpUnknownPDUHandlers 9
  binding 1.3.6.1.6.3.12.1.4.0 41 0a # snmpUnavailableContexts 10
  binding 1.3.6.1.6.3.12.1.5.0 41 0b # snmpUnknownContexts 11
