What the views of the configuration say of the variables that an answer refuses, or says it hasn't.

By these rows bob may read all but write no name of the system group.

  $ sed '/^\[\[context\]\]/,$d' "$TOP/examples/no-answer.toml" > views.toml
  $ cat >> views.toml <<END
  > [[context]]
  > name = ""
  > [[group]]
  > model = 3
  > name = "bob"
  > group = "ops"
  > [[access]]
  > group = "ops"
  > prefix = ""
  > model = 3
  > level = "authNoPriv"
  > match = "exact"
  > read = "all"
  > write = "ops-write"
  > [[family]]
  > view = "all"
  > subtree = "1.3"
  > include = true
  > [[family]]
  > view = "ops-write"
  > subtree = "1.3.6.1.2.1.1.4"
  > include = false
  > END
  $ snmpsec diagnose --user bob views.toml "$TOP/examples/diagnose.pcap" | grep -B 2 'by this configuration'
  13  22:13:32.000000  10.0.0.9:40001 > 10.0.0.5:161  bob authNoPriv  Set 1.3.6.1.2.1.1.4.0
      answered after 0.9 ms: error authorizationError at 1
      by this configuration notInView: access row 0 (line 26), view "ops-write", family row 1 (line 38)
  15  22:13:33.000000  10.0.0.9:40001 > 10.0.0.5:161  bob authNoPriv  Get 1.3.6.1.2.1.99.0
      answered after 0.4 ms: 1.3.6.1.2.1.99.0 = noSuchObject
      by this configuration accessAllowed: access row 0 (line 26), view "all", family row 0 (line 34)
  $ snmpsec diagnose --json views.toml "$TOP/examples/diagnose.pcap" | grep -o '"views":\[{[^]]*'
  "views":[{"access_row":{"line":26,"position":0},"answer":"notInView","context_row":{"line":20,"position":0},"family_row":{"line":38,"position":1},"group":"ops","group_row":{"line":22,"position":0},"name":"1.3.6.1.2.1.1.4.0","view":"ops-write"}
  "views":[{"access_row":{"line":26,"position":0},"answer":"accessAllowed","context_row":{"line":20,"position":0},"family_row":{"line":34,"position":0},"group":"ops","group_row":{"line":22,"position":0},"name":"1.3.6.1.2.1.99.0","view":"all"}

The same rows as arrays: the lines aren't known. With no view to write, and with no row at all.

  $ sed 's/^\[\[family/ &/; /^write/d' views.toml > indented.toml
  $ snmpsec diagnose indented.toml "$TOP/examples/diagnose.pcap" | grep 'by this configuration'
      by this configuration noSuchView: access row 0 (line 26)
      by this configuration accessAllowed: access row 0 (line 26), view "all", family row 0
  $ sed 's/^level = "authNoPriv"/level = "authPriv"/' views.toml > level.toml
  $ snmpsec diagnose level.toml "$TOP/examples/diagnose.pcap" | grep 'by this configuration'
      by this configuration noAccessEntry: group row 0 (line 22), group "ops"
      by this configuration noAccessEntry: group row 0 (line 22), group "ops"
  $ sed '/^\[\[context\]\]/,$d' views.toml > users.toml
  $ snmpsec diagnose users.toml "$TOP/examples/diagnose.pcap" | grep 'by this configuration'
  [1]
