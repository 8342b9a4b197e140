The access rows that snmpd 5.9.3 chooses, and those that RFC 3415 does. The expected ones are
net-snmp's own, and RFC 3415's.

Among these rows snmpd and RFC 3415 choose alike, so no note `differs` is printed.

  $ cat > f <<'END'
  > access g "" usm noauth exact own none none
  > access g "" usm priv exact high none none
  > access g adm any auth prefix every none none
  > access g admin usm auth exact same none none
  > group g usm ann
  > view own included .1
  > view high included .1
  > view every included .1
  > view same included .1
  > END
  $ snmpsec import-snmpd --context adm --context admin --context other f > config
  $ snmpsec explain-access config 3 ann authNoPriv read @ 1.3 | grep -e view -e no
  view own
  $ snmpsec explain-access config 3 ann authNoPriv read adm 1.3 | grep -e view -e no
  view every
  $ snmpsec explain-access config 3 ann authNoPriv read admin 1.3 | grep -e view -e no
  view same
  $ snmpsec explain-access config 3 ann authNoPriv read other 1.3 | grep -e view -e no
  noAccessEntry

RFC 3415 prefers the row for the message's own model, and snmpd the longer prefix. They differ in
`adm` and in contexts that begin with it. In `admin` and in the default context they agree.

  $ cat > f <<'END'
  > group g usm ann
  > group g usm bob
  > group g tsm carl
  > access g "" usm auth prefix own none none
  > access g adm any auth prefix every none none
  > access g admin any auth prefix own none none
  > view own included .1
  > view high included .1
  > view every included .1
  > view same included .1
  > END
  $ snmpsec import-snmpd f > config
  ! f:5: differs: access: group "g", model 3, authNoPriv, context "adm": snmpd takes this row, RFC 3415 that of f:4
  ! f:5: differs: access: group "g", model 3, authPriv, context "adm": snmpd takes this row, RFC 3415 that of f:4
  ! f:5: differs: access: group "g", model 3, authNoPriv, context "adm"*: snmpd takes this row, RFC 3415 that of f:4
  ! f:5: differs: access: group "g", model 3, authPriv, context "adm"*: snmpd takes this row, RFC 3415 that of f:4

In the context `adm1` the view is `own`, by RFC 3415.

  $ snmpsec import-snmpd --context adm1 --context admin f 2> notes > config
  $ cat notes
  ! f:5: differs: access: group "g", model 3, authNoPriv, context "adm": snmpd takes this row, RFC 3415 that of f:4
  ! f:5: differs: access: group "g", model 3, authPriv, context "adm": snmpd takes this row, RFC 3415 that of f:4
  ! f:5: differs: access: group "g", model 3, authNoPriv, context "adm"*: snmpd takes this row, RFC 3415 that of f:4
  ! f:5: differs: access: group "g", model 3, authPriv, context "adm"*: snmpd takes this row, RFC 3415 that of f:4
  ! f:5: differs: access: group "g", model 3, authNoPriv, context "adm1": snmpd takes this row, RFC 3415 that of f:4
  ! f:5: differs: access: group "g", model 3, authPriv, context "adm1": snmpd takes this row, RFC 3415 that of f:4
  $ snmpsec explain-access config 3 ann authNoPriv read adm1 1.3 | grep view
  view own

If both rows have the same views, nothing differs.

  $ cat > f <<'END'
  > group g usm ann
  > group g usm bob
  > group g tsm carl
  > access g "" usm auth prefix own none none
  > access g adm any auth prefix own none none
  > access g admin any auth prefix own none none
  > view own included .1
  > END
  $ snmpsec import-snmpd f > config
