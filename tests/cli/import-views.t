Lines `view` of snmpd.conf, subtrees and masks. The expected rows are net-snmp 5.9.3's.

Only views that some access row names are printed: here the group `g` reads `v`.

A line makes a row with a subtree, a mask and a type.

  $ printf '%b' > f \
  > 'access g "" usm auth exact v none none\n' \
  > 'view v included .1 80\n' \
  > 'view v excluded 1.3.\n' \
  > 'view v included .1.3.6.1.2.1.2.2.1.0.5 ff:a0\n' \
  > 'view v included .1.3.6.1.2.1.2.2.1.22 0xff.0XfE\n' \
  > 'view v included .1.3.6.1.2.1.2.2.1.0.7 ffa0\n' \
  > 'view v included 1.4 fg.0xg\n' \
  > 'view v included 1.5 \t\t-1:ff:ff\n' \
  > 'view v included 1.6  . : \n' \
  > 'view\tv\tincluded\t0x1.010\t+7\n'
  $ snmpsec import-snmpd f | rows
  ! f:6: differs: view: hex digits without a colon between them are one octet, for which the last two count
  context: context name=""
  f:1: access group="g" prefix="" model=3 level="authNoPriv" match="exact" read="v"
  f:2: family view="v" subtree="1" include=true mask="80"
  f:3: family view="v" subtree="1.3" include=false
  f:7: family view="v" subtree="1.4" include=true mask="0f"
  f:8: family view="v" subtree="1.5" include=true mask="ff"
  f:9: family view="v" subtree="1.6" include=true
  f:10: family view="v" subtree="1.8" include=true mask="07"
  f:5: family view="v" subtree="1.3.6.1.2.1.2.2.1.22" include=true mask="fffe"
  f:4: family view="v" subtree="1.3.6.1.2.1.2.2.1.0.5" include=true mask="ffa0"
  f:6: family view="v" subtree="1.3.6.1.2.1.2.2.1.0.7" include=true mask="a0"

Three hex digits one behind another have a note, in a simple line too. Fewer have none, and neither has a wrong mask.

  $ cat > f <<'END'
  > access g "" usm auth exact v none none
  > view v included .1.3.6.1.2.1.1.1 ff:a0
  > view v included .1.3.6.1.2.1.1.2 0xff.0xA0
  > view v included .1.3.6.1.2.1.1.3 f:f-a:0
  > view v included .1.3.6.1.2.1.1.4 ffa
  > view v included .1.3.6.1.2.1.1.5 ff:00FFa0
  > view v included .1.3.6.1.2.1.1.6 ff fade
  > view v included .1.3.6.1.2.1.1.7 # fade
  > rouser ann auth ".1.3.6.1.2.1.1.8 0fe"
  > END
  $ snmpsec import-snmpd f | rows
  ! f:5: differs: view: hex digits without a colon between them are one octet, for which the last two count
  ! f:6: differs: view: hex digits without a colon between them are one octet, for which the last two count
  ! f:7: differs: view: hex digits without a colon between them are one octet, for which the last two count
  ! f:8: refused by snmpd: view: invalid MASK
  ! f:9: differs: rouser: hex digits without a colon between them are one octet, for which the last two count
  context: context name=""
  f:9: group model=3 name="ann" group="grpann"
  f:1: access group="g" prefix="" model=3 level="authNoPriv" match="exact" read="v"
  f:9: access group="grpann" prefix="" model=3 level="authNoPriv" match="prefix" read="viewUSM1"
  f:2: family view="v" subtree="1.3.6.1.2.1.1.1" include=true mask="ff"
  f:3: family view="v" subtree="1.3.6.1.2.1.1.2" include=true mask="ff"
  f:4: family view="v" subtree="1.3.6.1.2.1.1.3" include=true mask="0f"
  f:5: family view="v" subtree="1.3.6.1.2.1.1.4" include=true mask="fa"
  f:6: family view="v" subtree="1.3.6.1.2.1.1.5" include=true mask="ff"
  f:7: family view="v" subtree="1.3.6.1.2.1.1.6" include=true mask="ff"
  f:9: family view="viewUSM1" subtree="1.3.6.1.2.1.1.8" include=true mask="fe"

A wrong line makes no row.

  $ cat > f <<'END'
  > view v included
  > view v includes .1
  > view v included sysName
  > view v included 1.3..
  > view v included .1.3 # all of it
  > view v included .1 1.1.1.1.1.1.1.1.1.1.1.1.1.1.1.1.1.1.1.1.1.1.1.1.1.1.1.1.1.1.1.1.1.1.x
  > view abcdefghijklmnopqrstuvwxyz0123456 included .4294967296
  > view v excluded .1.4294967296
  > END
  $ snmpsec import-snmpd f | rows
  ! f:1: refused by snmpd: view: missing a word
  ! f:2: refused by snmpd: view: TYPE must be included/excluded?
  ! f:3: left out: view: the subtree isn't in numbers
  ! f:4: left out: view: the subtree isn't in numbers
  ! f:5: refused by snmpd: view: invalid MASK
  ! f:6: refused by snmpd: view: MASK too long
  ! f:7: refused by snmpd: view: failed to create the entry
  ! f:8: ignored: view: no variable is below the subtree
  context: context name=""

Arcs are decimal, octal after a 0, or hex after 0x.

  $ cat > f <<'END'
  > access g "" usm auth exact v none none
  > view v included 1
  > view v included .1.3.6
  > view v included 0.0
  > view v included 1.3.6.1.010
  > view v included 1.3.0x6.1
  > view v included 0X1f.0x1F
  > view v included 00.007
  > view v included 0x0000000000000000000001
  > view v included 1.4294967295
  > view v included 037777777777
  > END
  $ snmpsec import-snmpd f | rows
  ! f:9: ignored: view: the row of f:2 has the same index
  context: context name=""
  f:1: access group="g" prefix="" model=3 level="authNoPriv" match="exact" read="v"
  f:2: family view="v" subtree="1" include=true
  f:11: family view="v" subtree="4294967295" include=true
  f:4: family view="v" subtree="0.0" include=true
  f:8: family view="v" subtree="0.7" include=true
  f:10: family view="v" subtree="1.4294967295" include=true
  f:7: family view="v" subtree="31.31" include=true
  f:3: family view="v" subtree="1.3.6" include=true
  f:6: family view="v" subtree="1.3.6.1" include=true
  f:5: family view="v" subtree="1.3.6.1.8" include=true

No variable has an arc above 4294967295.

  $ cat > f <<'END'
  > access g "" usm auth exact v none none
  > view v included 1.3.6.1.4.1.4294967296
  > view v included 0x100000000.1
  > view v included 040000000000
  > view v included 99999999999999999999999999999999
  > END
  $ snmpsec import-snmpd f | rows
  ! f:2: ignored: view: no variable is below the subtree
  ! f:3: ignored: view: no variable is below the subtree
  ! f:4: ignored: view: no variable is below the subtree
  ! f:5: ignored: view: no variable is below the subtree
  context: context name=""
  f:1: access group="g" prefix="" model=3 level="authNoPriv" match="exact" read="v"

Other texts aren't numbers. One dot at the end is allowed.

  $ cat > f <<'END'
  > access g "" usm auth exact v none none
  > view v included .
  > view v included ..1
  > view v included 1..3
  > view v included 1.3.
  > view v included 1.3..
  > view v included sysName
  > view v included 1.sysName
  > view v included 08
  > view v included 0x
  > view v included 0xg
  > view v included 1.3x
  > view v included +1
  > view v included -1
  > END
  $ snmpsec import-snmpd f | rows
  ! f:2: left out: view: the subtree isn't in numbers
  ! f:3: left out: view: the subtree isn't in numbers
  ! f:4: left out: view: the subtree isn't in numbers
  ! f:6: left out: view: the subtree isn't in numbers
  ! f:7: left out: view: the subtree isn't in numbers
  ! f:8: left out: view: the subtree isn't in numbers
  ! f:9: left out: view: the subtree isn't in numbers
  ! f:10: left out: view: the subtree isn't in numbers
  ! f:11: left out: view: the subtree isn't in numbers
  ! f:12: left out: view: the subtree isn't in numbers
  ! f:13: left out: view: the subtree isn't in numbers
  ! f:14: left out: view: the subtree isn't in numbers
  context: context name=""
  f:1: access group="g" prefix="" model=3 level="authNoPriv" match="exact" read="v"
  f:5: family view="v" subtree="1.3" include=true

A subtree has up to 128 arcs.

  $ { echo 'access g "" usm auth exact v none none'; printf 'view v included '; printf '.1%.0s' $(seq 128); echo; \
  > } > f
  $ snmpsec import-snmpd f | grep -c '^subtree = "1\(\.1\)\{127\}"$'
  1
  $ { printf 'view v included '; printf '.1%.0s' $(seq 129); echo; } > f
  $ snmpsec import-snmpd f | rows
  ! f:1: left out: view: the subtree isn't in numbers
  context: context name=""

In an access row `none` is no view, and is left out. If a view has that name, it is a view like others.

  $ cat > f <<'END'
  > access g "" usm auth exact v none none
  > view v included .1.3
  > view none included .1.3.6
  > END
  $ snmpsec import-snmpd f | rows
  context: context name=""
  f:1: access group="g" prefix="" model=3 level="authNoPriv" match="exact" read="v" write="none" notify="none"
  f:2: family view="v" subtree="1.3" include=true
  f:3: family view="none" subtree="1.3.6" include=true
