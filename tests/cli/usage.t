The command line: what is wrong with it, and help.

A command is needed, with its arguments.

  $ snmpsec
  ! error: 'snmpsec' requires a subcommand but one was not provided
  !   [subcommands: show, open, check-access, explain-access, who-sees, sees, check-config, import-snmpd, replay, merge-clocks, check-clocks, check-log, datagrams, diagnose, manual, version, help]
  !
  ! Usage: snmpsec [OPTIONS] <COMMAND>
  !
  ! For more information, try '--help'.
  [2]
  $ snmpsec show
  ! error: the following required arguments were not provided:
  !   <HEX>
  !
  ! Usage: snmpsec show <HEX>
  !
  ! For more information, try '--help'.
  [2]

There is no such command.

  $ snmpsec shout
  ! error: unrecognized subcommand 'shout'
  !
  !   tip: a similar subcommand exists: 'show'
  !
  ! Usage: snmpsec [OPTIONS] <COMMAND>
  !
  ! For more information, try '--help'.
  [2]

Either HEX or a file is given. The options of files need a file.

  $ snmpsec show 30 --from f
  ! error: the argument '[HEX]' cannot be used with '--from <FILE>'
  !
  ! Usage: snmpsec show <HEX>
  !
  ! For more information, try '--help'.
  [2]
  $ snmpsec open c
  ! error: the following required arguments were not provided:
  !   <HEX>
  !
  ! Usage: snmpsec open <CONFIG> <HEX>
  !
  ! For more information, try '--help'.
  [2]
  $ snmpsec show --port 161
  ! error: the following required arguments were not provided:
  !   <HEX>
  !
  ! Usage: snmpsec show --port <PORT> <HEX>
  !
  ! For more information, try '--help'.
  [2]
  $ snmpsec show 30 --port 161
  ! error: the argument '[HEX]' cannot be used with '--port <PORT>'
  !
  ! Usage: snmpsec show <HEX>
  !
  ! For more information, try '--help'.
  [2]
  $ snmpsec show 30 --ip
  ! error: the argument '[HEX]' cannot be used with '--ip'
  !
  ! Usage: snmpsec show <HEX>
  !
  ! For more information, try '--help'.
  [2]

`open` needs a configuration and a file.

  $ snmpsec open c --from f
  ! snmpsec: cannot read c
  ! snmpsec: c: there is no such file
  [2]

`--help` and `-h` as the only word print the help on standard output, with status 0. It names each command.

  $ snmpsec --help
  Looks into SNMPv3 messages, view-based access, logs of datagrams and saved clocks
  
  Usage: snmpsec [OPTIONS] <COMMAND>
  
  Commands:
    show            Print the fields of an SNMPv3 message, a field a line, and its canonical spelling
    open            Authenticate and decrypt an SNMPv3 message with the users' passwords, and print its fields
    check-access    Ask whether a user may read, write or be notified of a variable (RFC 3415)
    explain-access  Ask as check-access does, and print which rows of the configuration decided
    who-sees        Print who may read, write or be notified of a variable: MODEL NAME LEVEL VIEW CONTEXT
    sees            Print what a user may read, write or be notified of: LEVEL VIEW CONTEXT and subtrees
    check-config    Read a configuration: print how many rows each table has, or what is wrong with it
    import-snmpd    Print the configuration that files of net-snmp's snmpd come to
    replay          Process a log of datagrams as a manager does: print a line for each, and then the clocks
    merge-clocks    Print the join of saved clocks: of each engine the greatest boots and time
    check-clocks    Print how many engines each file of saved clocks has, or what is wrong with it
    check-log       Print how many lines a log has, or what is wrong with its first faulty line
    datagrams       Print the UDP datagrams of a capture as a log for replay, a line MOMENT HEX for each
    diagnose        Print what became of each request in a capture: answered, refused and why, or no answer
    manual          Print the help of a command, or of all, on standard output
    version         Print the name and the version of the program
    help            Print this message or the help of the given subcommand(s)
  
  Options:
        --why   After a refusal, print on standard error what is wrong and what is expected
    -h, --help  Print help
  
  A file - is standard input, which can be read once.
  $ snmpsec -h > help && snmpsec --help | cmp - help
  $ snmpsec --version && snmpsec -V
  snmpsec 0.1.0
  snmpsec 0.1.0

The help of a command explains its arguments and its status.

  $ has() {
  >   command=$1
  >   shift
  >   for text in "$@" 'Status: 0'
  >   do
  >     snmpsec $command --help 2>&1 | grep -qF -e "$text" || echo "no $text"
  >   done
  > }
  $ has show 'pairs of hex digits' examples/replay/captured.pcap
  no Status: 0
  $ has open examples/replay/config.toml 'pairs of hex digits' 'datagram N MOMENT'
  no Status: 0
  $ has explain-access examples/access.toml 'family POSITION'
  no Status: 0
  $ has check-access examples/access.toml '@ is the default one'
  no Status: 0
  $ has who-sees examples/access.toml
  no Status: 0
  $ has sees examples/access.toml 'An arc * may be any number'
  no Status: 0
  $ has check-config examples/access.toml
  no Status: 0
  $ has replay examples/replay/config.toml
  no Status: 0
  $ has merge-clocks examples/station-a.clocks
  no Status: 0
  $ has datagrams examples/replay/captured.pcap '161 and 162 if left out' 'pcap (or pcapng), hex or dump' 'each from its IP header on'
  no pcap (or pcapng), hex or dump
  no each from its IP header on
  no Status: 0

`manual` prints the same on standard output, with status 0 (help.t).

  $ for command in show open check-access explain-access who-sees sees check-config import-snmpd replay merge-clocks \
  >   check-clocks check-log datagrams version manual
  > do
  >   snmpsec $command --help 2> help
  >   snmpsec manual $command > manual || echo $?
  >   sed 's/^! //; s/^!$//' help | cmp - manual
  > done
  $ snmpsec --help > help
  $ snmpsec manual | cmp - help
  $ snmpsec manual shout
  ! error: unrecognized subcommand 'shout'
  !
  ! Usage: snmpsec [OPTIONS] <COMMAND>
  !
  ! For more information, try '--help'.
  [2]

Arguments must be UTF-8.

  $ snmpsec show "$(printf '\377')"
  ! error: invalid UTF-8 was detected in one or more arguments
  !
  ! Usage: snmpsec [OPTIONS] <COMMAND>
  !
  ! For more information, try '--help'.
  [2]
