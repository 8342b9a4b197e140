Rows of a configuration with the index of an earlier one.

Two users have one name.

  $ cat > config <<'END'
  > user = [{ name = 'ann' }, { name = 'ann' }]
  > END
  $ snmpsec check-config config
  refused config user 1 DuplicateUser
  ! snmpsec: user 1: an earlier user has this name
  [1]

Two contexts have one name.

  $ cat > config <<'END'
  > context = [{ name = 'a' }, { name = 'a' }]
  > END
  $ snmpsec check-config config
  refused config context 1 Duplicate
  ! snmpsec: context 1: an earlier row has this name
  [1]

Two group rows have one model and one name.

  $ cat > config <<'END'
  > group = [{ model = 3, name = 'ann', group = 'g' }, { model = 3, name = 'ann', group = 'h' }]
  > END
  $ snmpsec check-config config
  refused config group 1 Duplicate
  ! snmpsec: group 1: an earlier row has this model and name
  [1]

Two access rows have one group, prefix, model and level.

  $ cat > config <<'END'
  > access = [
  >     { group = 'g', prefix = '', model = 3, level = 'authPriv', match = 'exact' },
  >     { group = 'g', prefix = '', model = 3, level = 'authPriv', match = 'prefix', read = 'v' },
  > ]
  > END
  $ snmpsec check-config config
  refused config access 1 Duplicate
  ! snmpsec: access 1: an earlier row has this group, prefix, model and level
  [1]

Two family rows have one view and one subtree.

  $ cat > config <<'END'
  > family = [
  >     { view = 'v', subtree = '1.3', include = true },
  >     { view = 'v', subtree = '1.3', include = false, mask = 'a0' },
  > ]
  > END
  $ snmpsec check-config config
  refused config family 1 Duplicate
  ! snmpsec: family 1: an earlier row has this view and subtree
  [1]

Rows that differ in one part of their index are accepted.

  $ cat > config <<'END'
  > group = [{ model = 3, name = 'ann', group = 'g' }, { model = 2, name = 'ann', group = 'g' }]
  > access = [
  >     { group = 'g', prefix = '', model = 3, level = 'authPriv', match = 'exact' },
  >     { group = 'g', prefix = 'a', model = 3, level = 'authPriv', match = 'exact' },
  >     { group = 'g', prefix = '', model = 0, level = 'authPriv', match = 'exact' },
  >     { group = 'g', prefix = '', model = 3, level = 'authNoPriv', match = 'exact' },
  > ]
  > family = [{ view = 'v', subtree = '1.3', include = true }, { view = 'w', subtree = '1.3', include = true }]
  > END
  $ snmpsec check-config config
  user 0
  context 0
  group 2
  access 4
  family 2
