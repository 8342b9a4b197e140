Lines, sections and directives of snmpd.conf. The expected notes are net-snmp 5.9.3's.

A line may be empty, begin a section, or be wrong.

  $ printf '%b' > f \
  > '\n' \
  > ' \t\0013\r\n' \
  > '  # rouser ann\n' \
  > '\0000rouser ann\n' \
  > '[snmpd] # all\n' \
  > '[snmpd\n' \
  > '[\n' \
  > '[snmptrapd]\n' \
  > '[] rouser ann\n' \
  > 'rouser ann\n'
  $ snmpsec import-snmpd f | rows
  ! f:6: refused by snmpd: section without a closing bracket
  ! f:7: refused by snmpd: section without a closing bracket
  ! f:8: refused by snmpd: no such section
  ! f:9: refused by snmpd: no such section
  context: context name=""
  f:10: group model=3 name="ann" group="grpann"
  f:10: access group="grpann" prefix="" model=3 level="authNoPriv" match="prefix" read="_all_"
  built in: family view="_all_" subtree="0" include=true
  built in: family view="_all_" subtree="1" include=true
  built in: family view="_all_" subtree="2" include=true

Only directives of the section `[snmpd]` matter. A section may be on the line of its directive.

  $ printf '%b' > f \
  > '[snmp]\n' \
  > 'rouser ann\n' \
  > '\tRoUser  ann # all\r\n' \
  > 'rouser#ann\n' \
  > 'rouser # ann\n' \
  > 'rouser an\0000n\n' \
  > '[snmpd] "rouser" zoe auth\n' \
  > '[snmp] [snmpd]\n'
  $ snmpsec import-snmpd f | rows
  ! f:2: other: rouser
  ! f:3: other: RoUser
  ! f:4: refused by snmpd: rouser...: nothing after it
  ! f:5: refused by snmpd: rouser: nothing after it
  ! f:6: other: rouser
  ! f:8: refused by snmpd: [snmpd]: nothing after it
  context: context name=""
  f:7: group model=3 name="zoe" group="grpzoe"
  f:7: access group="grpzoe" prefix="" model=3 level="authNoPriv" match="prefix" read="_all_"
  built in: family view="_all_" subtree="0" include=true
  built in: family view="_all_" subtree="1" include=true
  built in: family view="_all_" subtree="2" include=true

A section lasts up to the next one. One before a directive is for that line alone.

  $ cat > f <<'END'
  > [snmpd] group g usm ann
  > group h usm bob
  > [snmpd]
  > group i usm carl
  > [snmp] group j usm dora
  > group k usm eve
  > END
  $ snmpsec import-snmpd f | rows
  ! f:5: other: group
  context: context name=""
  f:1: group model=3 name="ann" group="g"
  f:2: group model=3 name="bob" group="h"
  f:6: group model=3 name="eve" group="k"
  f:4: group model=3 name="carl" group="i"

Directives may be upper-case or lower-case.

  $ cat > f <<'END'
  > ACCESS g "" usm auth exact v v v
  > setAccess g "" usm auth exact write w
  > rwUser ann
  > rocommunity6 public
  > com2secunix a b c
  > usmUser 1 3 0x80 0x61 0x61 NULL .1.3 0x .1.3 0x 0x
  > sysLocation here
  > views v included .1
  > view v included .1
  > createUser bob
  > END
  $ snmpsec import-snmpd f | rows
  ! snmpsec: 1 usmUser line has localised keys, which can't be taken over: give such users by createUser
  ! f:4: left out: rocommunity6: messages of SNMPv1 and SNMPv2c are refused here; its rows are for a name of its own
  ! f:5: left out: com2secunix: a community's name here is that of a group row of model 1 or 2
  ! f:6: left out: usmUser: a row that snmpd itself has saved
  ! f:7: other: sysLocation
  ! f:8: other: views
  f:10: user name="bob"
  context: context name=""
  f:4: group model=1 name="comm2" group="grpcomm2"
  f:4: group model=2 name="comm2" group="grpcomm2"
  f:3: group model=3 name="ann" group="grpann"
  f:1: access group="g" prefix="" model=3 level="authNoPriv" match="exact" read="v" write="w" notify="v"
  f:3: access group="grpann" prefix="" model=3 level="authNoPriv" match="prefix" read="_all_" write="_all_" notify="_all_"
  f:4: access group="grpcomm2" prefix="" model=0 level="noAuthNoPriv" match="prefix" read="_all_"
  f:9: family view="v" subtree="1" include=true
  built in: family view="_all_" subtree="0" include=true
  built in: family view="_all_" subtree="1" include=true
  built in: family view="_all_" subtree="2" include=true

Each line makes a row, or has a note.

  $ printf '%b' > f \
  > '# access\n' \
  > 'group MyROGroup usm watcher\n' \
  > 'view all included .1 80\n' \
  > 'access MyROGroup "" any noauth exact all none none\r\n' \
  > '\n' \
  > '[snmp]\n' \
  > 'defVersion 3\n' \
  > '[snmpd] sysLocation Sitting\n' \
  > '[snmptrapd] authuser log traps\n' \
  > '[snmpd]\n' \
  > 'rouser\n' \
  > 'view v includes .1\n' \
  > 'rouser ann priv\n' \
  > 'disk / 10%\n'
  $ snmpsec import-snmpd f | rows
  ! f:7: other: defVersion
  ! f:8: other: sysLocation
  ! f:9: refused by snmpd: no such section
  ! f:11: refused by snmpd: rouser: nothing after it
  ! f:12: refused by snmpd: view: TYPE must be included/excluded?
  ! f:14: other: disk
  context: context name=""
  f:13: group model=3 name="ann" group="grpann"
  f:2: group model=3 name="watcher" group="MyROGroup"
  f:13: access group="grpann" prefix="" model=3 level="authPriv" match="prefix" read="_all_"
  f:4: access group="MyROGroup" prefix="" model=0 level="noAuthNoPriv" match="exact" read="all"
  f:3: family view="all" subtree="1" include=true mask="80"
  built in: family view="_all_" subtree="0" include=true
  built in: family view="_all_" subtree="1" include=true
  built in: family view="_all_" subtree="2" include=true

A file without directives makes only the context with the empty name.

  $ : > f
  $ snmpsec import-snmpd f | rows
  context: context name=""
  $ printf '\n\n' > f
  $ snmpsec import-snmpd f | rows
  context: context name=""
  $ printf '# nothing\n\n[snmp]\n' > f
  $ snmpsec import-snmpd f
  # context
  [[context]]
  name = ""
