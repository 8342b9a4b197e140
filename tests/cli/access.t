`snmpsec check-access`: whether a message may see a variable.

`ann` may read what is below 1, in the context without a name.

  $ cat > reads <<'END'
  > context = [{ name = '' }]
  > group = [{ model = 3, name = 'ann', group = 'g' }]
  > access = [{ group = 'g', prefix = '', model = 3, level = 'noAuthNoPriv', match = 'prefix', read = 'v' }]
  > family = [{ view = 'v', subtree = '1', include = true }]
  > END
  $ snmpsec check-access reads 3 ann noAuthNoPriv read @ 1.3.6
  accessAllowed
  $ snmpsec check-access reads 3 ann authPriv read @ 1
  accessAllowed
  $ snmpsec check-access reads 3 ann noAuthNoPriv write @ 1.3.6
  noSuchView
  [1]
  $ snmpsec check-access reads 2 ann noAuthNoPriv read @ 1.3.6
  noGroupName
  [1]
  $ snmpsec check-access reads 3 @ noAuthNoPriv read @ 1.3.6
  noGroupName
  [1]
  $ snmpsec check-access reads 3 ann noAuthNoPriv read x 1.3.6
  noSuchContext
  [1]
  $ snmpsec check-access reads 3 ann noAuthNoPriv read @ 2
  notInView
  [1]

`ann` must authenticate.

  $ cat > reads-safely <<'END'
  > context = [{ name = '' }]
  > group = [{ model = 3, name = 'ann', group = 'g' }]
  > access = [{ group = 'g', prefix = '', model = 3, level = 'authNoPriv', match = 'prefix', read = 'v' }]
  > family = [{ view = 'v', subtree = '1', include = true }]
  > END
  $ snmpsec check-access reads-safely 3 ann noAuthNoPriv read @ 1.3.6
  noAccessEntry
  [1]

The view excludes what is below 1.

  $ cat > reads-nothing <<'END'
  > context = [{ name = '' }]
  > group = [{ model = 3, name = 'ann', group = 'g' }]
  > access = [{ group = 'g', prefix = '', model = 3, level = 'noAuthNoPriv', match = 'prefix', read = 'v' }]
  > family = [{ view = 'v', subtree = '1', include = false }]
  > END
  $ snmpsec check-access reads-nothing 3 ann noAuthNoPriv read @ 1.3.6
  notInView
  [1]

This configuration has all keys, arrays of tables by their headings, and a mask whose second bit
lets 3 be any arc.

  $ cat > all-keys <<'END'
  > [[user]]
  > name = 'ann'
  > auth = 'sha1'
  > auth-password = 'maplesyrup'
  > priv-password = 'maplesyrup'
  > [[user]]
  > name = 'bob'
  > auth = 'md5'
  > auth-password = 'maplesyrup'
  > [[user]]
  > name = 'sam'
  > auth = 'sha256'
  > auth-password = 'maplesyrup'
  > priv-password = 'maplesyrup'
  > [[user]]
  > name = 'eve'
  > [[context]]
  > name = 'here'
  > [[group]]
  > model = 2147483647
  > name = 'ann'
  > group = 'g'
  > [[access]]
  > group = 'g'
  > prefix = 'here'
  > model = 0
  > level = 'authPriv'
  > match = 'exact'
  > read = ''
  > write = 'v'
  > notify = 'w'
  > [[family]]
  > view = 'v'
  > subtree = '1.3.6'
  > mask = 'bF'
  > include = true
  > [[family]]
  > view = 'w'
  > subtree = '1.3.6'
  > mask = ''
  > include = true
  > END
  $ snmpsec check-access all-keys 2147483647 ann authPriv write here 1.4.6.1
  accessAllowed
  $ snmpsec check-access all-keys 2147483647 ann authPriv notify here 1.4.6.1
  notInView
  [1]
  $ snmpsec check-access all-keys 2147483647 ann authPriv read here 1.3.6.1
  noSuchView
  [1]

An empty configuration has no contexts.

  $ : > empty
  $ snmpsec check-access empty 1 '' authNoPriv read '' 0
  noSuchContext
  [1]

A configuration may have no users.

  $ echo 'user = []' > no-users
  $ snmpsec check-access no-users 1 '' authNoPriv read '' 0
  noSuchContext
  [1]

The first malformed argument is reported, before the configuration is checked.

  $ printf 'user = \n' > broken
  $ snmpsec check-access reads 0 ann noAuthNoPriv read @ 1.3.6
  ! snmpsec: bad word MODEL
  [2]
  $ snmpsec check-access broken 0 ann noAuthNoPriv read @ 1.3.6
  ! snmpsec: bad word MODEL
  [2]
  $ snmpsec check-access reads '' ann noAuthNoPriv read @ 1.3.6
  ! snmpsec: bad word MODEL
  [2]
  $ snmpsec check-access broken '' ann noAuthNoPriv read @ 1.3.6
  ! snmpsec: bad word MODEL
  [2]
  $ snmpsec check-access reads 03 ann noAuthNoPriv read @ 1.3.6
  ! snmpsec: bad word MODEL
  [2]
  $ snmpsec check-access broken 03 ann noAuthNoPriv read @ 1.3.6
  ! snmpsec: bad word MODEL
  [2]
  $ snmpsec check-access reads +3 ann noAuthNoPriv read @ 1.3.6
  ! snmpsec: bad word MODEL
  [2]
  $ snmpsec check-access broken +3 ann noAuthNoPriv read @ 1.3.6
  ! snmpsec: bad word MODEL
  [2]
  $ snmpsec check-access reads 2147483648 ann noAuthNoPriv read @ 1.3.6
  ! snmpsec: bad word MODEL
  [2]
  $ snmpsec check-access broken 2147483648 ann noAuthNoPriv read @ 1.3.6
  ! snmpsec: bad word MODEL
  [2]
  $ snmpsec check-access reads 4294967297 ann noAuthNoPriv read @ 1.3.6
  ! snmpsec: bad word MODEL
  [2]
  $ snmpsec check-access broken 4294967297 ann noAuthNoPriv read @ 1.3.6
  ! snmpsec: bad word MODEL
  [2]
  $ snmpsec check-access reads 3 ann noauthnopriv read @ 1.3.6
  ! snmpsec: bad word LEVEL
  [2]
  $ snmpsec check-access broken 3 ann noauthnopriv read @ 1.3.6
  ! snmpsec: bad word LEVEL
  [2]
  $ snmpsec check-access reads 3 ann '' read @ 1.3.6
  ! snmpsec: bad word LEVEL
  [2]
  $ snmpsec check-access broken 3 ann '' read @ 1.3.6
  ! snmpsec: bad word LEVEL
  [2]
  $ snmpsec check-access reads 3 ann authPriv reads @ 1.3.6
  ! snmpsec: bad word VIEW
  [2]
  $ snmpsec check-access broken 3 ann authPriv reads @ 1.3.6
  ! snmpsec: bad word VIEW
  [2]
  $ snmpsec check-access reads 3 ann authPriv Read @ 1.3.6
  ! snmpsec: bad word VIEW
  [2]
  $ snmpsec check-access broken 3 ann authPriv Read @ 1.3.6
  ! snmpsec: bad word VIEW
  [2]
  $ snmpsec check-access reads 3 ann authPriv read @ ''
  ! snmpsec: bad word OID
  [2]
  $ snmpsec check-access broken 3 ann authPriv read @ ''
  ! snmpsec: bad word OID
  [2]
  $ snmpsec check-access reads 3 ann authPriv read @ 1..3
  ! snmpsec: bad word OID
  [2]
  $ snmpsec check-access broken 3 ann authPriv read @ 1..3
  ! snmpsec: bad word OID
  [2]
  $ snmpsec check-access reads 0 ann none none @ ''
  ! snmpsec: bad word MODEL
  [2]
  $ snmpsec check-access broken 0 ann none none @ ''
  ! snmpsec: bad word MODEL
  [2]
  $ snmpsec check-access reads 3 ann none none @ ''
  ! snmpsec: bad word LEVEL
  [2]
  $ snmpsec check-access broken 3 ann none none @ ''
  ! snmpsec: bad word LEVEL
  [2]
  $ snmpsec check-access reads 3 ann authPriv none @ ''
  ! snmpsec: bad word VIEW
  [2]
  $ snmpsec check-access broken 3 ann authPriv none @ ''
  ! snmpsec: bad word VIEW
  [2]
