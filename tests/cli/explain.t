`snmpsec explain-access`: the answer, and which rows decided. The slow model of tools/ gave the
texts.

Rows that match come before and after better ones.

  $ cat > config <<'END'
  > context = [{ name = 'b' }, { name = '' }, { name = 'ab' }, { name = 'a' }]
  > group = [{ model = 3, name = 'bob', group = 'h' }, { model = 1, name = 'ann', group = 'h' }, { model = 3, name = 'ann', group = 'g' }]
  > [[access]] # any model
  > group = 'g'
  > prefix = 'ab'
  > model = 0
  > level = 'authPriv'
  > match = 'prefix'
  > read = 'w'
  > [[access]]
  > group = 'h'
  > prefix = ''
  > model = 3
  > level = 'authNoPriv'
  > match = 'prefix'
  > read = 'v'
  > [[access]] # a shorter prefix
  > group = 'g'
  > prefix = ''
  > model = 3
  > level = 'authPriv'
  > match = 'prefix'
  > read = 'v'
  > write = 'x'
  > [[access]] # a lower level
  > group = 'g'
  > prefix = 'a'
  > model = 3
  > level = 'noAuthNoPriv'
  > match = 'prefix'
  > read = 'v'
  > [[access]]
  > group = 'g'
  > prefix = 'a'
  > model = 3
  > level = 'authNoPriv'
  > match = 'prefix'
  > read = 'v'
  > notify = 'w'
  > [[family]]
  > view = 'v'
  > subtree = '1.3'
  > include = true
  > [[family]]
  > view = 'w'
  > subtree = '1.3.6.1.9'
  > include = true
  > [[family]] # a shorter one
  > view = 'v'
  > subtree = '1.3.6'
  > include = true
  > [[family]] # any second and fourth arc; a lesser subtree of as many arcs
  > view = 'v'
  > subtree = '1.2.6.1'
  > mask = 'a0'
  > include = true
  > [[family]]
  > view = 'v'
  > subtree = '1.3.6.2'
  > include = false
  > END

There is no such context.

  $ snmpsec explain-access config 3 ann authPriv read c 1.3.6.2.1
  noSuchContext
  [1]

The name is in no group.

  $ snmpsec explain-access config 3 eve authPriv read a 1.3.6.2.1
  noGroupName
  context 3
  [1]

The group's access row needs a higher level.

  $ snmpsec explain-access config 3 bob noAuthNoPriv read @ 1.3.6
  noAccessEntry
  context 1
  group 0 h
  [1]

The empty prefix matches every context.

  $ snmpsec explain-access config 3 bob authPriv read b 1.3.6
  accessAllowed
  context 0
  group 0 h
  access 1
  view v
  family 2

A row for the message's own model comes before one for any model.

  $ snmpsec explain-access config 3 ann authPriv read ab 1.3.6.2.1
  notInView
  context 2
  group 2 g
  access 4
  view v
  family 4
  [1]

At a lower level another row is the best.

  $ snmpsec explain-access config 3 ann noAuthNoPriv read ab 1.3.6.2.1
  notInView
  context 2
  group 2 g
  access 3
  view v
  family 4
  [1]

The row with the empty prefix is the only one that matches the context.

  $ snmpsec explain-access config 3 ann authPriv read b 1.3.6.1.1
  accessAllowed
  context 0
  group 2 g
  access 2
  view v
  family 3

A shorter subtree decides if no longer one matches.

  $ snmpsec explain-access config 3 ann authPriv read a 1.3
  accessAllowed
  context 3
  group 2 g
  access 4
  view v
  family 0
  $ snmpsec explain-access config 3 ann authPriv read a 1.3.7
  accessAllowed
  context 3
  group 2 g
  access 4
  view v
  family 0

No subtree contains the variable.

  $ snmpsec explain-access config 3 ann authPriv read a 1
  notInView
  context 3
  group 2 g
  access 4
  view v
  [1]

The view for notifications has other subtrees.

  $ snmpsec explain-access config 3 ann authPriv notify a 1.3.6
  notInView
  context 3
  group 2 g
  access 4
  view w
  [1]

The row names no view to write.

  $ snmpsec explain-access config 3 ann authPriv write a 1.3.6
  noSuchView
  context 3
  group 2 g
  access 4
  [1]

The row names a view that has no subtree.

  $ snmpsec explain-access config 3 ann authPriv write @ 1.3.6
  noSuchView
  context 1
  group 2 g
  access 2
  view x
  [1]

Under model 2 the name is in no group.

  $ snmpsec explain-access config 2 ann authPriv read ab 1.3.6
  noGroupName
  context 2
  [1]

The group of model 1 has no access row for this model.

  $ snmpsec explain-access config 1 ann authPriv read ab 1.3.6
  noAccessEntry
  context 2
  group 1 h
  [1]

Arguments and configurations are refused as by `check-access`.

  $ echo 'user = 1' > broken
  $ snmpsec explain-access broken 0 ann authPriv read @ 1
  ! snmpsec: bad word MODEL
  [2]
  $ snmpsec explain-access broken 3 ann authPriv read @ 1.
  ! snmpsec: bad word OID
  [2]
  $ snmpsec explain-access broken 3 ann authPriv read @ 1
  refused config top
  [1]

Names of groups and views are printed as one piece of ASCII. So none of them makes a line of its own, and no control
character reaches the terminal.

  $ cat > names <<'END'
  > context = [{ name = '' }]
  > group = [{ model = 3, name = "\u202Eann\u0085\U0001F600", group = "g\u001B[2J" }]
  > [[access]]
  > group = "g\u001B[2J"
  > prefix = ''
  > model = 3
  > level = 'authPriv'
  > match = 'exact'
  > read = "v\nfamily 9"
  > [[family]]
  > view = "v\nfamily 9"
  > subtree = '1.3'
  > include = true
  > END
  $ snmpsec explain-access names 3 "$(printf '\342\200\256ann\302\205\360\237\230\200')" authPriv read @ 1.3.6
  accessAllowed
  context 0
  group 0 "g\u001B[2J"
  access 0
  view "v\u000Afamily 9"
  family 0
  $ snmpsec who-sees names 1.3.6
  3 "\u202Eann\u0085\U0001F600" authPriv read @
