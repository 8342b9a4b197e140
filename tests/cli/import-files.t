Lines of snmpd.conf that name other files.

A line may name a file or a folder. Each file has its own line numbers.

  $ printf '%b' > f \
  > 'includeFile other.conf\n' \
  > 'INCLUDEFILE other.conf\n' \
  > 'iNCLUDEDIR folder\n' \
  > '[snmp] includeSearch all\n' \
  > 'include other.conf\n' \
  > 'includefile\n' \
  > 'group "\0377" usm ann\n' \
  > 'group g usm ann # last'
  $ : > a; : > b; : > c
  $ snmpsec import-snmpd a b c f | rows
  ! f:1: refused by snmpd: includeFile: can't be read
  ! f:2: other: INCLUDEFILE
  ! f:3: refused by snmpd: iNCLUDEDIR: can't be read
  ! f:4: left out: includeSearch: name the file on the command line
  ! f:5: refused by snmpd: include: includeFile, includeDir or includeSearch, and a name, are wanted
  ! f:6: refused by snmpd: includefile: includeFile, includeDir or includeSearch, and a name, are wanted
  ! f:7: left out: group: a name isn't UTF-8
  context: context name=""
  f:8: group model=3 name="ann" group="g"

A file that isn't there has a note. With `--no-include` none is opened.

  $ echo 'includeFile no/such.conf' > f
  $ snmpsec import-snmpd f | rows
  ! f:1: refused by snmpd: includeFile: can't be read
  context: context name=""
  $ snmpsec import-snmpd --no-include f | rows
  ! f:1: left out: includeFile: not followed: name the files on the command line
  context: context name=""

A FIFO isn't opened, since nobody may ever write to it. It has the same note.

  $ mkfifo fifo
  $ echo 'includeFile fifo' > f
  $ timeout 20 snmpsec import-snmpd f | rows
  ! f:1: refused by snmpd: includeFile: can't be read
  context: context name=""

Of a word that is no directive's only what could be one is shown: a file may be named by mistake that holds secrets.

  $ echo 'includeFile shadow' > f
  $ cat > shadow <<'END'
  > root:$6$salt$k0bhGK:19000:0:99999:7:::
  > correct-horse-battery-staple-1234567890 rest
  > END
  $ snmpsec import-snmpd f | rows
  ! f:1: other: includeFile: read in its place
  ! shadow:1: refused by snmpd: root...: nothing after it
  ! shadow:2: other: correct-horse-battery-staple-123...
  context: context name=""

Where no line is known there is no configuration. Comments and headings are no lines, and one file with a known line is enough.

  $ snmpsec import-snmpd shadow
  ! snmpsec: no line is known as one of snmpd.conf on users or access, so there is no configuration
  [1]
  $ printf '# nothing\n[snmpd]\n\n' > nothing
  $ snmpsec import-snmpd nothing | rows
  context: context name=""
  $ printf 'engineBoots 7\n[snmp]\n' > boots
  $ snmpsec import-snmpd boots
  ! snmpsec: no line is known as one of snmpd.conf on users or access, so there is no configuration
  [1]
  $ echo 'GROUP' > group
  $ snmpsec import-snmpd boots group | rows
  ! boots:1: other: engineBoots
  ! group:1: refused by snmpd: GROUP: nothing after it
  context: context name=""

The file is read at the place of the line. Its name is relative to the file that names it.

  $ mkdir folder
  $ echo 'group g usm ann' > folder/one.conf
  $ cat > folder/f <<'END'
  > group h usm bob
  > includeFile one.conf
  > group i usm carl
  > END
  $ snmpsec import-snmpd folder/f | rows
  ! folder/f:2: other: includeFile: read in its place
  context: context name=""
  folder/one.conf:1: group model=3 name="ann" group="g"
  folder/f:1: group model=3 name="bob" group="h"
  folder/f:3: group model=3 name="carl" group="i"

The files of a folder are read in the order of their names, with a note if there are several.

  $ echo 'group j usm dora' > folder/two.conf; echo 'includeDir folder' > f
  $ snmpsec import-snmpd --strict f | rows
  ! f:1: other: includeDir: read in its place
  ! f:1: other: includeDir: read in its place
  ! f:1: order: includeDir: several files, read by name; snmpd takes them as the folder gives them
  context: context name=""
  folder/one.conf:1: group model=3 name="ann" group="g"
  folder/two.conf:1: group model=3 name="dora" group="j"
  $ snmpsec import-snmpd --strict f > config
  ! f:1: other: includeDir: read in its place
  ! f:1: other: includeDir: read in its place
  ! f:1: order: includeDir: several files, read by name; snmpd takes them as the folder gives them
  [1]

A file that names itself is read up to a limit.

  $ echo 'includeFile f' > f
  $ snmpsec import-snmpd f 2> notes > config; grep -c 'read in its place' notes; grep -v 'read in its place' notes
  16
  ! f:1: refused by snmpd: includeFile: too many files, or too many in one another
