`snmpsec check-config --why`: rows of an accepted configuration that are probably a mistake.

An empty configuration has no warnings.

  $ : > config
  $ snmpsec check-config --why config
  user 0
  context 0
  group 0
  access 0
  family 0

A user is in no group.

  $ cat > config <<'END'
  > user = [{ name = 'ann' }, { name = 'a"b' }]
  > group = [{ model = 2, name = 'ann', group = 'g' }, { model = 3, name = 'a"b', group = 'g' }]
  > access = [{ group = 'g', prefix = '', model = 0, level = 'authPriv', match = 'exact' }]
  > END
  $ snmpsec check-config --why config
  user 2
  context 0
  group 2
  access 1
  family 0
  ! snmpsec: user 0: no group row of model 3 has the name "ann"

A group has no access row, and a name isn't a user's.

  $ cat > config <<'END'
  > group = [{ model = 1, name = 'public', group = 'g' }, { model = 3, name = 'bob', group = 'h' }]
  > END
  $ snmpsec check-config --why config
  user 0
  context 0
  group 2
  access 0
  family 0
  ! snmpsec: group 0: no access row has the group "g"
  ! snmpsec: group 1: no access row has the group "h"
  ! snmpsec: group 1: no user has the name "bob"

An access row has no group, has views without subtrees, or lets anybody write.

  $ cat > config <<'END'
  > access = [
  >     { group = 'g', prefix = '', model = 3, level = 'authPriv', match = 'exact', read = 'v', notify = '' },
  >     { group = 'h', prefix = '', model = 3, level = 'noAuthNoPriv', match = 'exact', read = 'w', write = 'x', notify = 'y' },
  > ]
  > family = [{ view = 'v', subtree = '1', include = true }]
  > END
  $ snmpsec check-config --why config
  user 0
  context 0
  group 0
  access 2
  family 1
  ! snmpsec: access 0: no group row has the group "g"
  ! snmpsec: access 1: no group row has the group "h"
  ! snmpsec: access 1: no family row has the read view "w"
  ! snmpsec: access 1: no family row has the write view "x"
  ! snmpsec: access 1: no family row has the notify view "y"
  ! snmpsec: access 1: a message without authentication writes to the view "x"

A view is named by no access row.

  $ cat > config <<'END'
  > family = [{ view = 'v', subtree = '1', include = true }, { view = 'v', subtree = '2', include = false }]
  > END
  $ snmpsec check-config --why config
  user 0
  context 0
  group 0
  access 0
  family 2
  ! snmpsec: family 0: no access row names the view "v"
  ! snmpsec: family 1: no access row names the view "v"

In this configuration each row is used.

  $ cat > config <<'END'
  > user = [{ name = 'ann' }]
  > group = [{ model = 3, name = 'ann', group = 'g' }]
  > access = [{ group = 'g', prefix = '', model = 3, level = 'authPriv', match = 'exact', notify = 'v' }]
  > family = [{ view = 'v', subtree = '1', include = true }]
  > END
  $ snmpsec check-config --why config
  user 1
  context 0
  group 1
  access 1
  family 1

Names differ by a capital letter and by a blank.

  $ cat > config <<'END'
  > user = [{ name = 'ann' }]
  > group = [{ model = 3, name = 'Ann', group = 'g' }]
  > access = [{ group = 'g', prefix = '', model = 3, level = 'authPriv', match = 'exact', write = 'v' }]
  > family = [{ view = 'v ', subtree = '1', include = true }]
  > END
  $ snmpsec check-config --why config
  user 1
  context 0
  group 1
  access 1
  family 1
  ! snmpsec: user 0: no group row of model 3 has the name "ann"
  ! snmpsec: group 0: no user has the name "Ann"
  ! snmpsec: access 0: no family row has the write view "v"
  ! snmpsec: family 0: no access row names the view "v "

A row under a heading is reported with its line.

  $ cat > config <<'END'
  > # users
  > [[user]]
  > name = 'ann'
  > 
  > [[user]] # the second
  > name = 'bob'
  > [[group]]
  > model = 3
  > name = 'ann'
  > group = 'g'
  > END
  $ snmpsec check-config --why config
  user 2
  context 0
  group 1
  access 0
  family 0
  ! snmpsec: user 1, line 5: no group row of model 3 has the name "bob"
  ! snmpsec: group 0, line 7: no access row has the group "g"

If one heading of a table is indented, none of its rows has a line number.

  $ cat > config <<'END'
  > [[user]]
  > name = 'ann'
  >   [[user]]
  > name = 'bob'
  > [[group]]
  > model = 1
  > name = 'ann'
  > group = 'g'
  > END
  $ snmpsec check-config --why config
  user 2
  context 0
  group 1
  access 0
  family 0
  ! snmpsec: user 0: no group row of model 3 has the name "ann"
  ! snmpsec: user 1: no group row of model 3 has the name "bob"
  ! snmpsec: group 0, line 5: no access row has the group "g"

A line inside a multi-line string isn't a heading.

  $ cat > config <<'END'
  > [[user]]
  > name = 'ann'
  > [[group]]
  > model = 2
  > name = '''
  > [[group]]
  > '''
  > group = 'g'
  > END
  $ snmpsec check-config --why config
  user 1
  context 0
  group 1
  access 0
  family 0
  ! snmpsec: user 0, line 1: no group row of model 3 has the name "ann"
  ! snmpsec: group 0: no access row has the group "g"
