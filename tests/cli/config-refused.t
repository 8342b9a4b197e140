Configurations that are refused, by `snmpsec check-access` and by `snmpsec check-config`.

`check-access` prints the first fault, and `check-config` also says what is wrong.

The text isn't TOML, or has something other than the five tables.

  $ check() {
  >   cat > config
  >   snmpsec check-access config 3 ann noAuthNoPriv read @ 1.3.6
  >   test $? = 1 && snmpsec check-config config
  > }
  $ check <<'END'
  > user = 
  > END
  refused config toml
  refused config toml
  ! snmpsec: TOML parse error at line 1, column 8: invalid value, expected a string, number, boolean, date-time, array or inline table
  [1]
  $ check <<'END'
  > users = []
  > user = [
  > END
  refused config toml
  refused config toml
  ! snmpsec: TOML parse error at line 3, column 1: invalid value, expected a string, number, boolean, date-time, array or inline table
  [1]
  $ check <<'END'
  > user = [[[[[[[[[[[[[[[[
  > END
  refused config toml
  refused config toml
  ! snmpsec: TOML parse error at line 2, column 1: invalid value, expected a string, number, boolean, date-time, array or inline table
  [1]

At most 16 brackets are open, outside of strings and comments. A key has 80 parts at most, and a bracket behind each of 78 such keys
would be 6,000 tables in one another.

  $ check <<'END'
  > # [[[[[[[[[[[[[[[[[
  > [[user]]
  > name = """a " b [[[[[[[[[[[[[[[[[
  > """
  > auth = ['[[[[[[[[[[[[[[[[[', "\"[[[[[[[[[[[[[[[[["]
  > priv = ["ß", [[[[[[[[[[[[[[[[
  > END
  refused config nesting
  refused config nesting
  ! snmpsec: line 6, column 29: 16 brackets are open, and no more may be
  [1]
  $ python3 -c "key = '.'.join(['a'] * 79); print((key + '={') * 78 + 'b=1' + '}' * 78)" > config
  $ snmpsec check-config config
  refused config nesting
  ! snmpsec: line 1, column 2703: 16 brackets are open, and no more may be
  [1]
  $ python3 -c "key = '.'.join(['a'] * 79); print((key + '={') * 16 + 'b=1' + '}' * 16)" > config
  $ snmpsec check-config config
  refused config top
  ! snmpsec: a: at the top stand the arrays of tables user, context, group, access and family, and nothing else
  [1]

The top has five arrays of tables.

  $ check <<'END'
  > users = []
  > END
  refused config top
  refused config top
  ! snmpsec: users: at the top stand the arrays of tables user, context, group, access and family, and nothing else
  [1]
  $ check <<'END'
  > user = 1
  > END
  refused config top
  refused config top
  ! snmpsec: user: at the top stand the arrays of tables user, context, group, access and family, and nothing else
  [1]
  $ check <<'END'
  > user = [1]
  > END
  refused config top
  refused config top
  ! snmpsec: user: at the top stand the arrays of tables user, context, group, access and family, and nothing else
  [1]
  $ check <<'END'
  > user = [{ x = 1 }, 1]
  > END
  refused config top
  refused config top
  ! snmpsec: user: at the top stand the arrays of tables user, context, group, access and family, and nothing else
  [1]
  $ check <<'END'
  > [user]
  > name = 'ann'
  > END
  refused config top
  refused config top
  ! snmpsec: user: at the top stand the arrays of tables user, context, group, access and family, and nothing else
  [1]
  $ check <<'END'
  > user = [{ }]
  > other = 1
  > END
  refused config top
  refused config top
  ! snmpsec: other: at the top stand the arrays of tables user, context, group, access and family, and nothing else
  [1]

The tables of a gateway have no place there.

  $ check <<'END'
  > [gate]
  > END
  refused config top
  refused config top
  ! snmpsec: gate: at the top stand the arrays of tables user, context, group, access and family, and nothing else
  [1]
  $ check <<'END'
  > [[device]]
  > context = 'rack-1-pdu'
  > END
  refused config top
  refused config top
  ! snmpsec: device: at the top stand the arrays of tables user, context, group, access and family, and nothing else
  [1]

A key is shown as TOML has it, so that no control character is on standard error.

  $ check <<'END'
  > "\u001B[31m\"\\\u007F" = 1
  > END
  refused config top
  refused config top
  ! snmpsec: "\u001B[31m\"\\\u007F": at the top stand the arrays of tables user, context, group, access and family, and nothing else
  [1]
  $ check <<'END'
  > user = [{ "na\u0007me" = 'ann' }]
  > END
  refused config user 0 BadKey
  refused config user 0 BadKey
  ! snmpsec: user 0: "na\u0007me": not a key of this table, the nearest is name
  [1]
  $ check <<'END'
  > user = [{ "größe" = 'ann' }]
  > END
  refused config user 0 BadKey
  refused config user 0 BadKey
  ! snmpsec: user 0: "gr\xc3\xb6\xc3\x9fe": not a key of this table, the nearest is name (esc)
  [1]
  $ check <<'END'
  > "" = 1
  > END
  refused config top
  refused config top
  ! snmpsec: "": at the top stand the arrays of tables user, context, group, access and family, and nothing else
  [1]

A `user` row has an unknown key, lacks a key, or has a wrong value.

  $ check <<'END'
  > user = [{ name = 'ann', auth = 'md5', auth-password = 'maplesyrup', boots = 1 }]
  > END
  refused config user 0 BadKey
  refused config user 0 BadKey
  ! snmpsec: user 0: boots: not a key of this table
  [1]
  $ check <<'END'
  > user = [{ }]
  > END
  refused config user 0 BadKey
  refused config user 0 BadKey
  ! snmpsec: user 0: name: missing, a text
  [1]
  $ check <<'END'
  > user = [{ name = 1 }]
  > END
  refused config user 0 BadKey
  refused config user 0 BadKey
  ! snmpsec: user 0: name: a text
  [1]
  $ check <<'END'
  > user = [{ name = 'ann' }, { name = 'bob', auth = 'md5' }]
  > END
  refused config user 1 BadKey
  refused config user 1 BadKey
  ! snmpsec: user 1: auth-password: missing, a text
  [1]
  $ check <<'END'
  > user = [{ name = 'ann', auth-password = 'maplesyrup' }]
  > END
  refused config user 0 BadKey
  refused config user 0 BadKey
  ! snmpsec: user 0: auth: missing, one of md5, sha1, sha256
  [1]
  $ check <<'END'
  > user = [{ name = 'ann', auth = 'md4', auth-password = 'maplesyrup' }]
  > END
  refused config user 0 BadKey
  refused config user 0 BadKey
  ! snmpsec: user 0: auth: one of md5, sha1, sha256
  [1]
  $ check <<'END'
  > user = [{ name = 'ann', priv-password = 1 }]
  > END
  refused config user 0 BadKey
  refused config user 0 BadKey
  ! snmpsec: user 0: priv-password: a text
  [1]

The other tables are checked in the same way.

  $ check <<'END'
  > context = [{ name = '', x = '' }]
  > END
  refused config context 0 BadKey
  refused config context 0 BadKey
  ! snmpsec: context 0: x: not a key of this table
  [1]
  $ check <<'END'
  > context = [{ name = 'aaaaaaaaaaaaaaaaaaaaaaaaaaaaaaaaa' }]
  > END
  refused config context 0 BadKey
  refused config context 0 BadKey
  ! snmpsec: context 0: name: a text of at most 32 octets
  [1]
  $ check <<'END'
  > group = [{ name = 'ann', group = 'g' }]
  > END
  refused config group 0 BadKey
  refused config group 0 BadKey
  ! snmpsec: group 0: model: missing, a whole number from 0 to 2147483647
  [1]
  $ check <<'END'
  > group = [{ model = '3', name = 'ann', group = 'g' }]
  > END
  refused config group 0 BadKey
  refused config group 0 BadKey
  ! snmpsec: group 0: model: a whole number from 0 to 2147483647
  [1]
  $ check <<'END'
  > group = [{ model = -1, name = 'ann', group = 'g' }]
  > END
  refused config group 0 BadKey
  refused config group 0 BadKey
  ! snmpsec: group 0: model: a whole number from 0 to 2147483647
  [1]
  $ check <<'END'
  > group = [{ model = 2147483648, name = 'ann', group = 'g' }]
  > END
  refused config group 0 BadKey
  refused config group 0 BadKey
  ! snmpsec: group 0: model: a whole number from 0 to 2147483647
  [1]
  $ check <<'END'
  > group = [{ model = 3, name = 'ann', group = 'g', x = 1 }]
  > END
  refused config group 0 BadKey
  refused config group 0 BadKey
  ! snmpsec: group 0: x: not a key of this table
  [1]
  $ check <<'END'
  > access = [{ group = 'g', prefix = '', model = 4294967296, level = 'authPriv', match = 'exact' }]
  > END
  refused config access 0 BadKey
  refused config access 0 BadKey
  ! snmpsec: access 0: model: a whole number from 0 to 2147483647
  [1]
  $ check <<'END'
  > access = [{ group = 'g', model = 3, level = 'authPriv', match = 'exact' }]
  > END
  refused config access 0 BadKey
  refused config access 0 BadKey
  ! snmpsec: access 0: prefix: missing, a text of at most 32 octets
  [1]
  $ check <<'END'
  > access = [{ group = 'g', prefix = '', model = 3, level = 'AuthPriv', match = 'exact' }]
  > END
  refused config access 0 BadKey
  refused config access 0 BadKey
  ! snmpsec: access 0: level: one of noAuthNoPriv, authNoPriv, authPriv
  [1]
  $ check <<'END'
  > access = [{ group = 'g', prefix = '', model = 3, level = 'authPriv', match = 'any' }]
  > END
  refused config access 0 BadKey
  refused config access 0 BadKey
  ! snmpsec: access 0: match: one of exact, prefix
  [1]
  $ check <<'END'
  > access = [{ group = 'g', prefix = '', model = 3, level = 'authPriv', match = 'exact', read = 1 }]
  > END
  refused config access 0 BadKey
  refused config access 0 BadKey
  ! snmpsec: access 0: read: a text of at most 32 octets
  [1]
  $ check <<'END'
  > access = [{ group = 'g', prefix = '', model = 3, level = 'authPriv', match = 'exact', view = '' }]
  > END
  refused config access 0 BadKey
  refused config access 0 BadKey
  ! snmpsec: access 0: view: not a key of this table
  [1]
  $ check <<'END'
  > family = [{ view = 'v', subtree = '1', include = 1 }]
  > END
  refused config family 0 BadKey
  refused config family 0 BadKey
  ! snmpsec: family 0: include: true or false
  [1]
  $ check <<'END'
  > family = [{ view = 'v', subtree = '1' }]
  > END
  refused config family 0 BadKey
  refused config family 0 BadKey
  ! snmpsec: family 0: include: missing, true or false
  [1]
  $ check <<'END'
  > family = [{ view = 'v', subtree = '01', include = true }]
  > END
  refused config family 0 BadKey
  refused config family 0 BadKey
  ! snmpsec: family 0: subtree: an object identifier in dotted decimal
  [1]
  $ check <<'END'
  > family = [{ view = 'v', subtree = '1', include = true, mask = '0' }]
  > END
  refused config family 0 BadKey
  refused config family 0 BadKey
  ! snmpsec: family 0: mask: at most 16 octets in hex
  [1]
  $ check <<'END'
  > family = [{ view = 'v', subtree = '1', include = true, mask = '0g' }]
  > END
  refused config family 0 BadKey
  refused config family 0 BadKey
  ! snmpsec: family 0: mask: at most 16 octets in hex
  [1]
  $ check <<'END'
  > family = [{ view = 'v', subtree = '1', include = true, mask = '0000000000000000000000000000000000' }]
  > END
  refused config family 0 BadKey
  refused config family 0 BadKey
  ! snmpsec: family 0: mask: at most 16 octets in hex
  [1]
  $ check <<'END'
  > family = [{ view = 'v', subtree = '1', include = true, mask = '000000000000000000000000000000000' }]
  > END
  refused config family 0 BadKey
  refused config family 0 BadKey
  ! snmpsec: family 0: mask: at most 16 octets in hex
  [1]

All keys of the row can be read, but it isn't a valid user.

  $ check <<'END'
  > user = [{ name = '' }]
  > END
  refused config user 0 BadUser
  refused config user 0 BadUser
  ! snmpsec: user 0: a name of 1 to 32 octets is wanted, and a priv-password only beside auth and auth-password
  [1]
  $ check <<'END'
  > user = [{ name = 'aaaaaaaaaaaaaaaaaaaaaaaaaaaaaaaaa' }]
  > END
  refused config user 0 BadUser
  refused config user 0 BadUser
  ! snmpsec: user 0: a name of 1 to 32 octets is wanted, and a priv-password only beside auth and auth-password
  [1]
  $ check <<'END'
  > user = [{ name = 'ann', priv-password = 'maplesyrup' }]
  > END
  refused config user 0 BadUser
  refused config user 0 BadUser
  ! snmpsec: user 0: a name of 1 to 32 octets is wanted, and a priv-password only beside auth and auth-password
  [1]
  $ check <<'END'
  > user = [{ name = 'ann' }, { name = 'bob', auth = 'md5', auth-password = 'seven77' }]
  > END
  refused config user 1 ShortPassword
  refused config user 1 ShortPassword
  ! snmpsec: user 1: passwords of at least 8 octets are wanted
  [1]
  $ check <<'END'
  > user = [{ name = 'ann' }, { name = 'ann' }]
  > END
  refused config user 1 DuplicateUser
  refused config user 1 DuplicateUser
  ! snmpsec: user 1: an earlier user has this name
  [1]

All keys of the row can be read, but it isn't a valid row.

  $ check <<'END'
  > context = [{ name = '' }, { name = '' }]
  > END
  refused config context 1 Duplicate
  refused config context 1 Duplicate
  ! snmpsec: context 1: an earlier row has this name
  [1]
  $ check <<'END'
  > group = [{ model = 0, name = 'ann', group = 'g' }]
  > END
  refused config group 0 BadRow
  refused config group 0 BadRow
  ! snmpsec: group 0: a model from 1 to 2147483647 is wanted, and a name and a group that aren't empty
  [1]
  $ check <<'END'
  > access = [{ group = '', prefix = '', model = 3, level = 'authPriv', match = 'exact' }]
  > END
  refused config access 0 BadRow
  refused config access 0 BadRow
  ! snmpsec: access 0: a group that isn't empty is wanted
  [1]
  $ check <<'END'
  > family = [{ view = '', subtree = '1', include = true }]
  > END
  refused config family 0 BadRow
  refused config family 0 BadRow
  ! snmpsec: family 0: a view that isn't empty is wanted
  [1]
  $ check <<'END'
  > family = [{ view = 'v', subtree = '1', include = true }, { view = 'v', subtree = '1', include = false, mask = 'FF' }]
  > END
  refused config family 1 Duplicate
  refused config family 1 Duplicate
  ! snmpsec: family 1: an earlier row has this view and subtree
  [1]

Of two faults only one is reported: tables in their order, and bad keys before bad rows.

  $ check <<'END'
  > user = [{ name = '' }]
  > family = [{ view = 'v', subtree = '1', include = true }, { }]
  > END
  refused config family 1 BadKey
  refused config family 1 BadKey
  ! snmpsec: family 1: view: missing, a text of at most 32 octets
  [1]
  $ check <<'END'
  > family = [{ }]
  > access = [{ }]
  > group = [{ }]
  > context = [{ name = '' }, { }]
  > END
  refused config context 1 BadKey
  refused config context 1 BadKey
  ! snmpsec: context 1: name: missing, a text of at most 32 octets
  [1]
  $ check <<'END'
  > context = [{ }]
  > user = [{ }]
  > END
  refused config user 0 BadKey
  refused config user 0 BadKey
  ! snmpsec: user 0: name: missing, a text
  [1]
  $ check <<'END'
  > context = [{ name = '' }, { name = '' }]
  > user = [{ name = 'ann' }, { name = 'ann' }]
  > END
  refused config user 1 DuplicateUser
  refused config user 1 DuplicateUser
  ! snmpsec: user 1: an earlier user has this name
  [1]
  $ check <<'END'
  > group = [{ model = 0, name = 'ann', group = 'g' }]
  > context = [{ name = '' }, { name = '' }]
  > END
  refused config context 1 Duplicate
  refused config context 1 Duplicate
  ! snmpsec: context 1: an earlier row has this name
  [1]
  $ check <<'END'
  > user = [{ name = '', auth = 'md5', auth-password = '' }]
  > END
  refused config user 0 BadUser
  refused config user 0 BadUser
  ! snmpsec: user 0: a name of 1 to 32 octets is wanted, and a priv-password only beside auth and auth-password
  [1]
  $ check <<'END'
  > user = [{ name = 'ann' }, { name = 'ann', auth = 'md5', auth-password = '' }]
  > END
  refused config user 1 ShortPassword
  refused config user 1 ShortPassword
  ! snmpsec: user 1: passwords of at least 8 octets are wanted
  [1]

TOML is UTF-8.

  $ printf '# \377' | check
  refused config toml
  refused config toml
  ! snmpsec: TOML parse error at line 1, column 3: invalid UTF-8
  [1]
