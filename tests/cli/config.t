`snmpsec check-config`: how many rows a configuration has, or what is wrong with it.

It counts the rows of each table, or reports the first fault.

An empty configuration is valid.

  $ : > config
  $ snmpsec check-config config
  user 0
  context 0
  group 0
  access 0
  family 0

This configuration has every key.

  $ cat > config <<'END'
  > [[user]]
  > name = 'ann'
  > auth = 'sha1'
  > auth-password = 'maplesyrup'
  > priv-password = 'maplesyrup'
  > [[user]]
  > name = 'bob'
  > auth = 'md5'
  > auth-password = 'maplesyrup'
  > [[user]]
  > name = 'sam'
  > auth = 'sha256'
  > auth-password = 'maplesyrup'
  > priv-password = 'maplesyrup'
  > [[user]]
  > name = 'eve'
  > [[context]]
  > name = 'here'
  > [[group]]
  > model = 2147483647
  > name = 'ann'
  > group = 'g'
  > [[access]]
  > group = 'g'
  > prefix = 'here'
  > model = 0
  > level = 'authPriv'
  > match = 'exact'
  > read = ''
  > write = 'v'
  > notify = 'w'
  > [[family]]
  > view = 'v'
  > subtree = '1.3.6'
  > mask = 'bF'
  > include = true
  > [[family]]
  > view = 'w'
  > subtree = '1.3.6'
  > mask = ''
  > include = true
  > END
  $ snmpsec check-config config
  user 4
  context 1
  group 1
  access 1
  family 2

A level isn't one of the three.

  $ cat > config <<'END'
  > access = [{ group = 'g', prefix = '', model = 3, level = 'priv', match = 'exact' }]
  > END
  $ snmpsec check-config config
  refused config access 0 BadKey
  ! snmpsec: access 0: level: one of noAuthNoPriv, authNoPriv, authPriv
  [1]
  $ snmpsec check-config --why config
  refused config access 0 BadKey
  ! snmpsec: access 0: level: one of noAuthNoPriv, authNoPriv, authPriv
  [1]

An unknown key is reported with the nearest known one.

  $ echo "user = [{ name = 'ann', authpassword = 'maplesyrup' }]" > config
  $ snmpsec check-config config
  refused config user 0 BadKey
  ! snmpsec: user 0: authpassword: not a key of this table, the nearest is auth-password
  [1]
  $ snmpsec check-config --why config
  refused config user 0 BadKey
  ! snmpsec: user 0: authpassword: not a key of this table, the nearest is auth-password
  [1]

A key is missing.

  $ echo "group = [{ name = 'ann', group = 'g' }]" > config
  $ snmpsec check-config config
  refused config group 0 BadKey
  ! snmpsec: group 0: model: missing, a whole number from 0 to 2147483647
  [1]
  $ snmpsec check-config --why config
  refused config group 0 BadKey
  ! snmpsec: group 0: model: missing, a whole number from 0 to 2147483647
  [1]

A table is unknown.

  $ echo 'users = []' > config
  $ snmpsec check-config config
  refused config top
  ! snmpsec: users: at the top stand the arrays of tables user, context, group, access and family, and nothing else
  [1]
  $ snmpsec check-config --why config
  refused config top
  ! snmpsec: users: at the top stand the arrays of tables user, context, group, access and family, and nothing else
  [1]

Two rows have the same name.

  $ echo "context = [{ name = '' }, { name = '' }]" > config
  $ snmpsec check-config config
  refused config context 1 Duplicate
  ! snmpsec: context 1: an earlier row has this name
  [1]
  $ snmpsec check-config --why config
  refused config context 1 Duplicate
  ! snmpsec: context 1: an earlier row has this name
  [1]

With `--why` warnings come after the counts (hints.t).

  $ cat > config <<'END'
  > [[user]]
  > name = 'ann'
  > auth = 'sha1'
  > auth-password = 'maplesyrup'
  > priv-password = 'maplesyrup'
  > [[user]]
  > name = 'bob'
  > auth = 'md5'
  > auth-password = 'maplesyrup'
  > [[user]]
  > name = 'sam'
  > auth = 'sha256'
  > auth-password = 'maplesyrup'
  > priv-password = 'maplesyrup'
  > [[user]]
  > name = 'eve'
  > [[context]]
  > name = 'here'
  > [[group]]
  > model = 2147483647
  > name = 'ann'
  > group = 'g'
  > [[access]]
  > group = 'g'
  > prefix = 'here'
  > model = 0
  > level = 'authPriv'
  > match = 'exact'
  > read = ''
  > write = 'v'
  > notify = 'w'
  > [[family]]
  > view = 'v'
  > subtree = '1.3.6'
  > mask = 'bF'
  > include = true
  > [[family]]
  > view = 'w'
  > subtree = '1.3.6'
  > mask = ''
  > include = true
  > END
  $ snmpsec check-config --why config 2> warnings
  user 4
  context 1
  group 1
  access 1
  family 2
