Which rows snmpd holds after lines, and which of them counts. The expected rows are net-snmp
5.9.3's.

Rows are printed in the order of their indexes. Of two rows with one index only one counts.

  $ cat > f <<'END'
  > group second usm walter
  > group first usm ann
  > group third usm ann
  > group every any ann
  > access first "" usm auth prefix wide none none
  > access first "" usm auth exact narrow none none
  > access first "" any noauth exact _all_ none none
  > access first a usm auth exact narrow none none
  > view wide included .1.3
  > view wide excluded .1.3
  > view a included .1.3.6
  > END
  $ snmpsec import-snmpd f | rows
  ! f:2: ignored: group: the row of f:4 has the same index
  ! f:3: ignored: group: the row of f:4 has the same index
  ! f:5: differs: access: the row of f:6 has the same index
  ! f:10: ignored: view: the row of f:9 has the same index
  context: context name=""
  f:4: group model=1 name="ann" group="every"
  f:4: group model=2 name="ann" group="every"
  f:4: group model=3 name="ann" group="every"
  f:1: group model=3 name="walter" group="second"
  f:7: access group="first" prefix="" model=0 level="noAuthNoPriv" match="exact" read="_all_"
  f:6: access group="first" prefix="" model=3 level="authNoPriv" match="exact" read="narrow"
  f:8: access group="first" prefix="a" model=3 level="authNoPriv" match="exact" read="narrow"
  f:11: family view="a" subtree="1.3.6" include=true
  f:9: family view="wide" subtree="1.3" include=true
  built in: family view="_all_" subtree="0" include=true
  built in: family view="_all_" subtree="1" include=true
  built in: family view="_all_" subtree="2" include=true

A simple line stands for several others.

  $ cat > f <<'END'
  > rouser a.b
  > group g usm ann
  > rwuser -s tsm carl priv .1.3.6 adm*
  > rocommunity public
  > authgroup write,notify g auth -V v
  > END
  $ snmpsec import-snmpd f | rows
  ! f:4: left out: rocommunity: messages of SNMPv1 and SNMPv2c are refused here; its rows are for a name of its own
  context: context name=""
  f:4: group model=1 name="comm3" group="grpcomm3"
  f:4: group model=2 name="comm3" group="grpcomm3"
  f:1: group model=3 name="a.b" group="grpa_b"
  f:2: group model=3 name="ann" group="g"
  f:3: group model=4 name="carl" group="grpcarl"
  f:5: access group="g" prefix="" model=3 level="authNoPriv" match="prefix" write="v" notify="v"
  f:1: access group="grpa_b" prefix="" model=3 level="authNoPriv" match="prefix" read="_all_"
  f:3: access group="grpcarl" prefix="adm" model=4 level="authPriv" match="prefix" read="viewUSM2" write="viewUSM2" notify="viewUSM2"
  f:4: access group="grpcomm3" prefix="" model=0 level="noAuthNoPriv" match="prefix" read="_all_"
  built in: family view="_all_" subtree="0" include=true
  built in: family view="_all_" subtree="1" include=true
  built in: family view="_all_" subtree="2" include=true
  f:3: family view="viewUSM2" subtree="1.3.6" include=true

`setaccess` and `authaccess` change the row that snmpd would choose. If there is none they make one.

  $ cat > f <<'END'
  > access g "" any noauth prefix narrow none none
  > setaccess g "" usm auth exact read wide
  > setaccess g adm usm auth prefix write high
  > authaccess notify,log g -s usm low priv admin
  > authaccess read,write h all
  > END
  $ snmpsec import-snmpd f | rows
  ! f:4: left out: authaccess: snmptrapd alone asks for views of this type
  ! f:2: differs: access: changes the row of f:1, which has another index
  ! f:4: differs: access: changes the row of f:3, which has another index
  context: context name=""
  f:1: access group="g" prefix="" model=0 level="noAuthNoPriv" match="exact" read="wide"
  f:3: access group="g" prefix="adm" model=3 level="authNoPriv" match="exact" write="high" notify="low"
  f:5: access group="h" prefix="" model=0 level="authNoPriv" match="exact" read="all" write="all"
