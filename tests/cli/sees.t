`snmpsec sees`: what a name may see. The slow model of tools/ gave the texts.

The views have redundant rows and wildcards. Each level has other rows. One context is called `+`,
and one name `*`.

  $ cat > config <<'END'
  > context = [
  >     { name = '+' },
  >     { name = '' },
  > ]
  > group = [
  >     { model = 3, name = 'ann', group = 'g' },
  >     { model = 3, name = 'bob', group = 'h' },
  >     { model = 1, name = 'ann', group = 'h' },
  >     { model = 3, name = '*', group = 'f' },
  > ]
  > access = [
  >     { group = 'g', prefix = '', model = 3, level = 'noAuthNoPriv', match = 'prefix', read = 'most', write = 'none' },
  >     { group = 'g', prefix = '', model = 3, level = 'authNoPriv', match = 'exact', read = 'columns', notify = 'most' },
  >     { group = 'g', prefix = '', model = 0, level = 'authPriv', match = 'exact', read = 'none', write = 'most' },
  >     { group = 'h', prefix = '+', model = 0, level = 'authNoPriv', match = 'exact', read = 'denied', notify = 'no such' },
  >     { group = 'f', prefix = '+', model = 3, level = 'authPriv', match = 'exact', write = 'columns' },
  > ]
  > family = [
  >     { view = 'most', subtree = '1.3.6.1.4', include = false },
  >     { view = 'most', subtree = '1.3', include = true },
  >     { view = 'most', subtree = '1.3.6.1.4.1', include = false },
  >     { view = 'most', subtree = '1.3.6.1.4.1.9', include = true },
  >     { view = 'most', subtree = '1.2', include = false },
  >     { view = 'most', subtree = '1.3.6.1.10', include = true },
  >     { view = 'most', subtree = '1.3.6.1.4.2', mask = 'fc', include = false },
  >     { view = 'most', subtree = '1.3.6.1.4.1.9.9', include = true },
  >     { view = 'none', subtree = '1.3', include = false },
  >     { view = 'none', subtree = '1.3.6', include = false },
  >     { view = 'denied', subtree = '1.3', include = false, mask = 'bf' },
  >     { view = 'denied', subtree = '1.3.6', include = false },
  >     { view = 'columns', subtree = '1.3.6.1.2.1.2.2.1.0.2', include = true, mask = 'ffa0' },
  >     { view = 'columns', subtree = '1.3.6.1.2.1.2.2.1.10.2', include = false, mask = 'ffe0' },
  >     { view = 'columns', subtree = '1.3', include = false },
  >     { view = 'columns', subtree = '1.3.6', include = false, mask = '7f' },
  > ]
  > END

In a view without wildcards, lines that change nothing are left out.

  $ snmpsec sees config 3 ann
  noAuthNoPriv read + + 1.3
  noAuthNoPriv read + - 1.3.6.1.4
  noAuthNoPriv read + + 1.3.6.1.4.1.9
  noAuthNoPriv read @ + 1.3
  noAuthNoPriv read @ - 1.3.6.1.4
  noAuthNoPriv read @ + 1.3.6.1.4.1.9
  noAuthNoPriv write + notInView
  noAuthNoPriv write @ notInView
  noAuthNoPriv notify + noSuchView
  noAuthNoPriv notify @ noSuchView
  authNoPriv read + + 1.3
  authNoPriv read + - 1.3.6.1.4
  authNoPriv read + + 1.3.6.1.4.1.9
  authNoPriv read @ - 1.3
  authNoPriv read @ - *.3.6
  authNoPriv read @ + 1.3.6.1.2.1.2.2.1.*.2
  authNoPriv read @ - 1.3.6.1.2.1.2.2.1.10.2
  authNoPriv write + notInView
  authNoPriv write @ noSuchView
  authNoPriv notify + noSuchView
  authNoPriv notify @ + 1.3
  authNoPriv notify @ - 1.3.6.1.4
  authNoPriv notify @ + 1.3.6.1.4.1.9
  authPriv read + + 1.3
  authPriv read + - 1.3.6.1.4
  authPriv read + + 1.3.6.1.4.1.9
  authPriv read @ - 1.3
  authPriv read @ - *.3.6
  authPriv read @ + 1.3.6.1.2.1.2.2.1.*.2
  authPriv read @ - 1.3.6.1.2.1.2.2.1.10.2
  authPriv write + notInView
  authPriv write @ noSuchView
  authPriv notify + noSuchView
  authPriv notify @ + 1.3
  authPriv notify @ - 1.3.6.1.4
  authPriv notify @ + 1.3.6.1.4.1.9

`bob` has rows in one context.

  $ snmpsec sees config 3 bob
  noAuthNoPriv read + noAccessEntry
  noAuthNoPriv read @ noAccessEntry
  noAuthNoPriv write + noAccessEntry
  noAuthNoPriv write @ noAccessEntry
  noAuthNoPriv notify + noAccessEntry
  noAuthNoPriv notify @ noAccessEntry
  authNoPriv read + - 1.*
  authNoPriv read + - 1.3.6
  authNoPriv read @ noAccessEntry
  authNoPriv write + noSuchView
  authNoPriv write @ noAccessEntry
  authNoPriv notify + noSuchView
  authNoPriv notify @ noAccessEntry
  authPriv read + - 1.*
  authPriv read + - 1.3.6
  authPriv read @ noAccessEntry
  authPriv write + noSuchView
  authPriv write @ noAccessEntry
  authPriv notify + noSuchView
  authPriv notify @ noAccessEntry
  [1]

Under model 1 `ann` is in the group of `bob`.

  $ snmpsec sees config 1 ann
  noAuthNoPriv read + noAccessEntry
  noAuthNoPriv read @ noAccessEntry
  noAuthNoPriv write + noAccessEntry
  noAuthNoPriv write @ noAccessEntry
  noAuthNoPriv notify + noAccessEntry
  noAuthNoPriv notify @ noAccessEntry
  authNoPriv read + - 1.*
  authNoPriv read + - 1.3.6
  authNoPriv read @ noAccessEntry
  authNoPriv write + noSuchView
  authNoPriv write @ noAccessEntry
  authNoPriv notify + noSuchView
  authNoPriv notify @ noAccessEntry
  authPriv read + - 1.*
  authPriv read + - 1.3.6
  authPriv read @ noAccessEntry
  authPriv write + noSuchView
  authPriv write @ noAccessEntry
  authPriv notify + noSuchView
  authPriv notify @ noAccessEntry
  [1]

The name `*` isn't a wildcard.

  $ snmpsec sees config 3 '*'
  noAuthNoPriv read + noAccessEntry
  noAuthNoPriv read @ noAccessEntry
  noAuthNoPriv write + noAccessEntry
  noAuthNoPriv write @ noAccessEntry
  noAuthNoPriv notify + noAccessEntry
  noAuthNoPriv notify @ noAccessEntry
  authNoPriv read + noAccessEntry
  authNoPriv read @ noAccessEntry
  authNoPriv write + noAccessEntry
  authNoPriv write @ noAccessEntry
  authNoPriv notify + noAccessEntry
  authNoPriv notify @ noAccessEntry
  authPriv read + noSuchView
  authPriv read @ noAccessEntry
  authPriv write + - 1.3
  authPriv write + - *.3.6
  authPriv write + + 1.3.6.1.2.1.2.2.1.*.2
  authPriv write + - 1.3.6.1.2.1.2.2.1.10.2
  authPriv write @ noAccessEntry
  authPriv notify + noSuchView
  authPriv notify @ noAccessEntry

MODEL is checked before the configuration.

  $ echo 'user = 1' > broken
  $ : > empty
  $ snmpsec sees broken 0 eve
  ! snmpsec: bad word MODEL
  ! snmpsec: MODEL "0": it isn't a number from 1 to 2147483647; 3 is the user-based model
  [2]
  $ snmpsec sees broken 03 eve
  ! snmpsec: bad word MODEL
  ! snmpsec: MODEL "03": it isn't a number from 1 to 2147483647; 3 is the user-based model
  [2]
  $ snmpsec sees empty 2147483648 eve
  ! snmpsec: bad word MODEL
  ! snmpsec: MODEL "2147483648": it isn't a number from 1 to 2147483647; 3 is the user-based model
  [2]
  $ snmpsec sees empty '' eve
  ! snmpsec: bad word MODEL
  ! snmpsec: MODEL "": it isn't a number from 1 to 2147483647; 3 is the user-based model
  [2]

Without contexts there are no lines.

  $ snmpsec sees empty 2147483647 eve
  [1]

A context with a blank in its name is quoted.

  $ echo "context = [{ name = 'a b' }]" > blank
  $ snmpsec sees blank 3 eve
  noAuthNoPriv read "a b" noGroupName
  noAuthNoPriv write "a b" noGroupName
  noAuthNoPriv notify "a b" noGroupName
  authNoPriv read "a b" noGroupName
  authNoPriv write "a b" noGroupName
  authNoPriv notify "a b" noGroupName
  authPriv read "a b" noGroupName
  authPriv write "a b" noGroupName
  authPriv notify "a b" noGroupName
  [1]

Configurations are refused as by `check-config`.

  $ echo 'users = 1' > top
  $ snmpsec sees top 3 eve
  refused config top
  ! snmpsec: users: at the top stand the arrays of tables user, context, group, access and family, and nothing else
  [1]
