Words and lines of snmpd.conf, as `snmpsec import-snmpd` reads them. The expected rows are net-snmp
5.9.3's.

`rows` prints each row of the configuration on one line.

A word is held together by quotes and backslashes.

  $ tr '~' '\t' > f <<'END'
  > group group usm a
  > group "two words" usm b
  > group 'single " quoted'~usm c
  > group 'it''usm' d
  > group a\ b usm e
  > group "a\"b"usm f
  > group \\\"x usm g
  > END
  $ snmpsec import-snmpd f | rows
  context: context name=""
  f:1: group model=3 name="a" group="group"
  f:2: group model=3 name="b" group="two words"
  f:3: group model=3 name="c" group="single \" quoted"
  f:4: group model=3 name="d" group="it"
  f:5: group model=3 name="e" group="a b"
  f:6: group model=3 name="f" group="a\"b"
  f:7: group model=3 name="g" group="\\\"x"

A quote may be left open, and the last character may be a backslash.

  $ cat > f <<'END'
  > group g usm "left open x
  > group g usm \
  > group g usm ab\
  > group g usm "abc\
  > END
  $ snmpsec import-snmpd f | rows
  context: context name=""
  f:2: group model=3 name="\\" group="g"
  f:3: group model=3 name="ab\\" group="g"
  f:4: group model=3 name="abc\\" group="g"
  f:1: group model=3 name="left open x" group="g"

A comment begins only where a word could. Blanks, tabs, VT, FF and CR separate words.

  $ printf '%b' > f \
  > 'group g usm ann # all\n' \
  > 'group ann#all usm x\n' \
  > 'group ann # usm x\n' \
  > 'group ann\0013\0014\r  usm y\r\n' \
  > 'group \t\0013\0014\rgo usm z\n' \
  > 'group \0010x usm zoe\n'
  $ snmpsec import-snmpd f | rows
  ! f:3: undefined: group: a word is missing
  context: context name=""
  f:2: group model=3 name="x" group="ann#all"
  f:4: group model=3 name="y" group="ann"
  f:5: group model=3 name="z" group="go"
  f:1: group model=3 name="ann" group="g"
  f:6: group model=3 name="zoe" group="\u0008x"

An empty word is refused.

  $ cat > f <<'END'
  > group "" usm ann
  > group g usm ''
  > END
  $ snmpsec import-snmpd f | rows
  ! f:1: refused by snmpd: group: missing a word
  ! f:2: refused by snmpd: group: missing a word
  context: context name=""

A word has at most 32 octets.

  $ cat > f <<'END'
  > group abcdefghijklmnopqrstuvwxyz0123456789 usm a
  > group "abcdefghijklmnopqrstuvwxyz012345"usm b
  > group abcdefghijklmnopqrstuvwxyz01234\56789 usm c
  > group g usm abcdefghijklmnopqrstuvwxyz0123456789
  > END
  $ snmpsec import-snmpd f | rows
  context: context name=""
  f:1: group model=3 name="a" group="abcdefghijklmnopqrstuvwxyz012345"
  f:2: group model=3 name="b" group="abcdefghijklmnopqrstuvwxyz012345"
  f:3: group model=3 name="c" group="abcdefghijklmnopqrstuvwxyz012345"
  f:4: group model=3 name="abcdefghijklmnopqrstuvwxyz012345" group="g"

In `access` lines quotes don't hold words together.

  $ printf '%b' > f \
  > 'access   \tg  "" usm auth exact v v v\n' \
  > 'access "a b" usm auth exact v v v\n' \
  > 'access g #x usm auth exact v v v\n' \
  > 'access g a\0013b usm auth exact v v v\n' \
  > 'access g\n' \
  > 'access g \n'
  $ snmpsec import-snmpd f | rows
  ! f:5: refused by snmpd: access: missing a word
  ! f:6: refused by snmpd: access: missing a word
  context: context name=""
  f:1: access group="g" prefix="" model=3 level="authNoPriv" match="exact" read="v" write="v" notify="v"
  f:3: access group="g" prefix="#x" model=3 level="authNoPriv" match="exact" read="v" write="v" notify="v"
  f:4: access group="g" prefix="a\u000Bb" model=3 level="authNoPriv" match="exact" read="v" write="v" notify="v"
  f:2: access group="\"a" prefix="b\"" model=3 level="authNoPriv" match="exact" read="v" write="v" notify="v"

A directive needs something after it.

  $ printf '%b' > f \
  > 'group\n' \
  > 'group   \n' \
  > 'group # all\n'
  $ snmpsec import-snmpd f | rows
  ! f:1: refused by snmpd: group: nothing after it
  ! f:2: refused by snmpd: group: nothing after it
  ! f:3: refused by snmpd: group: nothing after it
  context: context name=""
