`snmpsec who-sees --below`: who may see some name at or below OID. The answers follow from RFC 3415, section 4
(vacmViewTreeFamilyTable), by hand: the comments say which row decides.

  $ cat > views <<'END'
  > context = [{ name = '' }]
  > user = [{ name = 'ann' }, { name = 'bob' }, { name = 'eve' }, { name = 'tom' }, { name = 'una' }]
  > group = [
  >     { model = 3, name = 'ann', group = 'rows' },
  >     { model = 3, name = 'bob', group = 'hole' },
  >     { model = 3, name = 'eve', group = 'island' },
  >     { model = 3, name = 'tom', group = 'siblings' },
  >     { model = 3, name = 'una', group = 'masked' },
  > ]
  > access = [
  >     { group = 'rows', prefix = '', model = 3, level = 'authPriv', match = 'exact', read = 'rows' },
  >     { group = 'hole', prefix = '', model = 3, level = 'authPriv', match = 'exact', read = 'hole' },
  >     { group = 'island', prefix = '', model = 3, level = 'authPriv', match = 'exact', read = 'island' },
  >     { group = 'siblings', prefix = '', model = 3, level = 'authPriv', match = 'exact', read = 'siblings', write = 'none' },
  >     { group = 'masked', prefix = '', model = 3, level = 'authPriv', match = 'exact', read = 'masked' },
  > ]
  > family = [
  >     # row 5 of ifTable, in each column
  >     { view = 'rows', subtree = '1.3.6.1.2.1.2.2.1.0.5', mask = 'ffa0', include = true },
  >     # all of mib-2 but ifTable
  >     { view = 'hole', subtree = '1.3.6.1.2.1', include = true },
  >     { view = 'hole', subtree = '1.3.6.1.2.1.2.2', include = false },
  >     # no interfaces but ifDescr
  >     { view = 'island', subtree = '1.3.6.1.2.1', include = true },
  >     { view = 'island', subtree = '1.3.6.1.2.1.2', include = false },
  >     { view = 'island', subtree = '1.3.6.1.2.1.2.2.1.2', include = true },
  >     # rows 1 and 2 of ifDescr are left out
  >     { view = 'siblings', subtree = '1.3.6.1.2.1.2.2.1.2', include = true },
  >     { view = 'siblings', subtree = '1.3.6.1.2.1.2.2.1.2.1', include = false },
  >     { view = 'siblings', subtree = '1.3.6.1.2.1.2.2.1.2.2', include = false },
  >     # row 3 of column 7; row 3 of each column is left out by a greater subtree of as many arcs
  >     { view = 'masked', subtree = '1.3.6.1.2.1.2.2.1.7.3', include = true },
  >     { view = 'masked', subtree = '1.3.6.1.2.1.2.2.1.9.3', mask = 'ffa0', include = false },
  >     # the same, by a lesser subtree, which doesn't decide
  >     { view = 'masked', subtree = '1.3.6.1.2.1.2.2.1.8.4', include = true },
  >     { view = 'masked', subtree = '1.3.6.1.2.1.2.2.1.6.4', mask = 'ffa0', include = false },
  > ]
  > END

Nobody may see a variable of ifTable's own name. All see some name below it but bob, whose view has a hole there.

  $ snmpsec who-sees views 1.3.6.1.2.1.2.2 read
  [1]
  $ snmpsec who-sees --below views 1.3.6.1.2.1.2.2 read
  3 ann authPriv read @
  3 eve authPriv read @
  3 tom authPriv read @
  3 una authPriv read @

The hole is ifTable, and the rest of mib-2 is around it.

  $ snmpsec who-sees --below views 1.3.6.1.2.1.2 read
  3 ann authPriv read @
  3 bob authPriv read @
  3 eve authPriv read @
  3 tom authPriv read @
  3 una authPriv read @
  $ snmpsec who-sees --below views 1.3.6.1.2.1.2.1 read
  3 bob authPriv read @

A mask: each column has row 5 for ann, and no row 6.

  $ snmpsec who-sees --below views 1.3.6.1.2.1.2.2.1.10 read
  3 ann authPriv read @
  $ snmpsec who-sees --below views 1.3.6.1.2.1.2.2.1.10.5 read
  3 ann authPriv read @
  $ snmpsec who-sees --below views 1.3.6.1.2.1.2.2.1.10.6 read
  [1]

Siblings: of ifDescr tom sees other rows than 1 and 2.

  $ snmpsec who-sees --below views 1.3.6.1.2.1.2.2.1.2 read
  3 ann authPriv read @
  3 eve authPriv read @
  3 tom authPriv read @
  $ snmpsec who-sees --below views 1.3.6.1.2.1.2.2.1.2.1 read
  3 eve authPriv read @
  $ snmpsec who-sees --below views 1.3.6.1.2.1.2.2.1.2.3 read
  3 eve authPriv read @
  3 tom authPriv read @

Of rows of as many arcs the greater decides: column 7 has nothing for una, and column 8 has its row 4.

  $ snmpsec who-sees --below views 1.3.6.1.2.1.2.2.1.7 read
  3 ann authPriv read @
  $ snmpsec who-sees --below views 1.3.6.1.2.1.2.2.1.8 read
  3 ann authPriv read @
  3 una authPriv read @

With users alone nobody has a password. A view without a row, and a name that no view has, aren't seen.

  $ snmpsec who-sees --below --users views 1.3.6.1.2.1.2.2 read
  [1]
  $ snmpsec who-sees --below views 1.3 write
  [1]
  $ snmpsec who-sees --below views 1.4
  [1]
  $ snmpsec who-sees --below views 1. read
  ! snmpsec: bad word OID
  ! snmpsec: OID "1.": number 2 is missing; write numbers with dots between, as 1.3.6.1.2.1.1.5.0
  [2]
