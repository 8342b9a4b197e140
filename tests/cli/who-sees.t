`snmpsec who-sees`: who may see a variable. A prototype in Python over the same definitions gave the
texts.

Some names need quotes, one has rows under two models, and one isn't a user's. Users have no
password, one or two.

  $ cat > names <<'END'
  > context = [
  >     { name = '@' },
  >     { name = '' },
  > ]
  > user = [
  >     { name = 'a b', auth = 'sha1', auth-password = 'maplesyrup' },
  >     { name = '@' },
  >     { name = 'ann', auth = 'md5', auth-password = 'maplesyrup', priv-password = 'another one' },
  >     { name = 'eve' },
  > ]
  > group = [
  >     { model = 3, name = "\"\\'\u007F\u0001\u001Fé", group = 'g' },
  >     { model = 2147483647, name = 'a b', group = 'h' },
  >     { model = 3, name = 'a b', group = 'g' },
  >     { model = 3, name = '@', group = 'g' },
  >     { model = 1, name = 'ann', group = 'g' },
  >     { model = 3, name = 'ann', group = 'g' },
  >     { model = 3, name = 'Ann', group = 'g' },
  > ]
  > access = [
  >     { group = 'g', prefix = '', model = 0, level = 'noAuthNoPriv', match = 'prefix', read = 'v' },
  >     { group = 'g', prefix = '', model = 3, level = 'authNoPriv', match = 'exact', notify = 'v' },
  >     { group = 'h', prefix = '@', model = 0, level = 'noAuthNoPriv', match = 'exact', write = 'v' },
  > ]
  > family = [
  >     { view = 'v', subtree = '1', include = true },
  > ]
  > END

A name is quoted if it is empty, has a blank, a quote or a control character, or is `@`.

  $ snmpsec who-sees names 1.3 read
  3 "\"\\'\u007F\u0001\u001F\u00E9" noAuthNoPriv read "@"
  3 "\"\\'\u007F\u0001\u001F\u00E9" noAuthNoPriv read @
  3 "\"\\'\u007F\u0001\u001F\u00E9" authNoPriv read "@"
  3 "\"\\'\u007F\u0001\u001F\u00E9" authPriv read "@"
  3 "a b" noAuthNoPriv read "@"
  3 "a b" noAuthNoPriv read @
  3 "a b" authNoPriv read "@"
  3 "a b" authPriv read "@"
  3 "@" noAuthNoPriv read "@"
  3 "@" noAuthNoPriv read @
  3 "@" authNoPriv read "@"
  3 "@" authPriv read "@"
  1 ann noAuthNoPriv read "@"
  1 ann noAuthNoPriv read @
  1 ann authNoPriv read "@"
  1 ann authNoPriv read @
  1 ann authPriv read "@"
  1 ann authPriv read @
  3 ann noAuthNoPriv read "@"
  3 ann noAuthNoPriv read @
  3 ann authNoPriv read "@"
  3 ann authPriv read "@"
  3 Ann noAuthNoPriv read "@"
  3 Ann noAuthNoPriv read @
  3 Ann authNoPriv read "@"
  3 Ann authPriv read "@"

One name has a write view.

  $ snmpsec who-sees names 1.3 write
  2147483647 "a b" noAuthNoPriv write "@"
  2147483647 "a b" authNoPriv write "@"
  2147483647 "a b" authPriv write "@"

The notify view is for one context.

  $ snmpsec who-sees names 1 notify
  3 "\"\\'\u007F\u0001\u001F\u00E9" authNoPriv notify @
  3 "\"\\'\u007F\u0001\u001F\u00E9" authPriv notify @
  3 "a b" authNoPriv notify @
  3 "a b" authPriv notify @
  3 "@" authNoPriv notify @
  3 "@" authPriv notify @
  3 ann authNoPriv notify @
  3 ann authPriv notify @
  3 Ann authNoPriv notify @
  3 Ann authPriv notify @

No view contains the variable.

  $ snmpsec who-sees names 2.3
  [1]

This configuration is that of explain.t.

  $ cat > choices <<'END'
  > context = [{ name = 'b' }, { name = '' }, { name = 'ab' }, { name = 'a' }]
  > group = [{ model = 3, name = 'bob', group = 'h' }, { model = 1, name = 'ann', group = 'h' }, { model = 3, name = 'ann', group = 'g' }]
  > [[access]] # any model
  > group = 'g'
  > prefix = 'ab'
  > model = 0
  > level = 'authPriv'
  > match = 'prefix'
  > read = 'w'
  > [[access]]
  > group = 'h'
  > prefix = ''
  > model = 3
  > level = 'authNoPriv'
  > match = 'prefix'
  > read = 'v'
  > [[access]] # a shorter prefix
  > group = 'g'
  > prefix = ''
  > model = 3
  > level = 'authPriv'
  > match = 'prefix'
  > read = 'v'
  > write = 'x'
  > [[access]] # a lower level
  > group = 'g'
  > prefix = 'a'
  > model = 3
  > level = 'noAuthNoPriv'
  > match = 'prefix'
  > read = 'v'
  > [[access]]
  > group = 'g'
  > prefix = 'a'
  > model = 3
  > level = 'authNoPriv'
  > match = 'prefix'
  > read = 'v'
  > notify = 'w'
  > [[family]]
  > view = 'v'
  > subtree = '1.3'
  > include = true
  > [[family]]
  > view = 'w'
  > subtree = '1.3.6.1.9'
  > include = true
  > [[family]] # a shorter one
  > view = 'v'
  > subtree = '1.3.6'
  > include = true
  > [[family]] # any second and fourth arc; a lesser subtree of as many arcs
  > view = 'v'
  > subtree = '1.2.6.1'
  > mask = 'a0'
  > include = true
  > [[family]]
  > view = 'v'
  > subtree = '1.3.6.2'
  > include = false
  > END
  $ snmpsec who-sees choices 1.3.6.2.1
  [1]
  $ snmpsec who-sees choices 1.3.6.1.9.4
  3 bob authNoPriv read b
  3 bob authNoPriv read @
  3 bob authNoPriv read ab
  3 bob authNoPriv read a
  3 bob authPriv read b
  3 bob authPriv read @
  3 bob authPriv read ab
  3 bob authPriv read a
  3 ann noAuthNoPriv read ab
  3 ann noAuthNoPriv read a
  3 ann authNoPriv read ab
  3 ann authNoPriv read a
  3 ann authPriv read b
  3 ann authPriv read @
  3 ann authPriv read ab
  3 ann authPriv read a
  3 ann authNoPriv notify ab
  3 ann authNoPriv notify a
  3 ann authPriv notify ab
  3 ann authPriv notify a

With `--users` only users are listed, at the levels for which they have passwords.

  $ snmpsec who-sees --users names 1.3
  3 "a b" noAuthNoPriv read "@"
  3 "a b" noAuthNoPriv read @
  3 "a b" authNoPriv read "@"
  3 "@" noAuthNoPriv read "@"
  3 "@" noAuthNoPriv read @
  3 ann noAuthNoPriv read "@"
  3 ann noAuthNoPriv read @
  3 ann authNoPriv read "@"
  3 ann authPriv read "@"
  3 "a b" authNoPriv notify @
  3 ann authNoPriv notify @
  3 ann authPriv notify @
  $ snmpsec who-sees --users names 1.3 write
  [1]

OID and VIEW are checked before the configuration.

  $ echo 'user = 1' > broken
  $ snmpsec who-sees broken 1. reads
  ! snmpsec: bad word OID
  ! snmpsec: OID "1.": number 2 is missing; write numbers with dots between, as 1.3.6.1.2.1.1.5.0
  [2]
  $ snmpsec who-sees broken ''
  ! snmpsec: bad word OID
  ! snmpsec: OID "": it is empty; write numbers with dots between, as 1.3.6.1.2.1.1.5.0
  [2]
  $ snmpsec who-sees broken 1 Read
  ! snmpsec: bad word VIEW
  ! snmpsec: VIEW "Read": unknown view, the nearest is read; use read, write or notify
  [2]
  $ snmpsec who-sees broken 1 ''
  ! snmpsec: bad word VIEW
  ! snmpsec: VIEW "": unknown view; use read, write or notify
  [2]

Configurations are refused as by `check-config`.

  $ echo 'users = 1' > top
  $ snmpsec who-sees top 1
  refused config top
  ! snmpsec: users: at the top stand the arrays of tables user, context, group, access and family, and nothing else
  [1]
