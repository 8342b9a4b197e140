The help of each command. `manual` prints on standard output what the `--help` of a command prints on standard error.

  $ snmpsec manual show
  Print the fields of an SNMPv3 message, a field a line, and its canonical spelling
  
  Usage: snmpsec show [OPTIONS] [HEX]
  
  Arguments:
    [HEX]  The datagram as pairs of hex digits, without blanks, colons or 0x; instead of --from
  
  Options:
        --names                  Print ' # NAME' after the lines that have a name: users, contexts, PDUs, counters
        --why                    After a refusal, print on standard error what is wrong and what is expected
        --community              Print messages of SNMPv1 and SNMPv2c too: version, community and PDU; without it they are refused
        --from <FILE>            A capture (pcap or pcapng), a log, pasted hex, or a dump as hexdump -C prints it; - is standard input
        --form <FORM>            The form of FILE: pcap or pcapng, log, hex or dump; found by its first octets if left out
        --port <PORT>            A port that the datagrams are from or to; may be repeated; 161 and 162 if left out
        --from-port <FROM_PORT>  Take only datagrams from this port, as 161 for what agents send; both directions if left out
        --moment <MOMENT>        When pasted hex or a dump was received, in seconds; 0 if left out
        --ip                     FILE is dumps of packets from their IP headers on, as tcpdump -x prints them
    -h, --help                   Print help
  
  With --from, a line 'datagram N MOMENT' comes before the fields of each datagram. N counts from 1.
  
  Example: snmpsec show --from examples/replay/captured.pcap
  
  Exit status:
    0  the message is printed
    1  a message is refused (a line 'refused N NAME at PLACE'), or the file of --from is
    2  the command line is wrong, or a file can't be read
  $ snmpsec manual open
  Authenticate and decrypt an SNMPv3 message with the users' passwords, and print its fields
  
  Usage: snmpsec open [OPTIONS] <CONFIG> [HEX]
  
  Arguments:
    <CONFIG>  TOML file with the users
    [HEX]     The datagram as pairs of hex digits, without blanks, colons or 0x; instead of --from
  
  Options:
        --names                  Print ' # NAME' after the lines that have a name: users, contexts, PDUs, counters
        --why                    After a refusal, print on standard error what is wrong and what is expected
        --from <FILE>            A capture (pcap or pcapng), a log, pasted hex, or a dump as hexdump -C prints it; - is standard input
        --form <FORM>            The form of FILE: pcap or pcapng, log, hex or dump; found by its first octets if left out
        --port <PORT>            A port that the datagrams are from or to; may be repeated; 161 and 162 if left out
        --from-port <FROM_PORT>  Take only datagrams from this port, as 161 for what agents send; both directions if left out
        --moment <MOMENT>        When pasted hex or a dump was received, in seconds; 0 if left out
        --ip                     FILE is dumps of packets from their IP headers on, as tcpdump -x prints them
    -h, --help                   Print help
  
  It doesn't check the time window. With --from, a line 'datagram N MOMENT' comes before the
  fields of each datagram. N counts from 1.
  
  Example: snmpsec open examples/replay/config.toml --from examples/replay/captured.pcap
  
  Exit status:
    0  the message is opened
    1  a message is refused (a line 'refused N NAME at PLACE'), or the file of --from or the
       configuration is
    2  the command line is wrong, or a file can't be read
  $ snmpsec manual check-access
  Ask whether a user may read, write or be notified of a variable (RFC 3415)
  
  Usage: snmpsec check-access [OPTIONS] <CONFIG> <MODEL> <NAME> <LEVEL> <VIEW> <CONTEXT> <OID>
  
  Arguments:
    <CONFIG>   TOML file with users, contexts, groups, access rows and families
    <MODEL>    Number of the security model: 3 is the user-based one
    <NAME>     Security name: with model 3 the user's name
    <LEVEL>    noAuthNoPriv, authNoPriv or authPriv
    <VIEW>     read, write or notify
    <CONTEXT>  Name of the context; @ is the default one, with the empty name
    <OID>      The variable, as 1.3.6.1.2.1.1.5.0: no name, no dot in front
  
  Options:
        --why   After a refusal, print on standard error what is wrong and what is expected
    -h, --help  Print help
  
  Example: snmpsec check-access examples/access.toml 3 nagios authPriv read @ 1.3.6.1.2.1.1.5.0
  
  Exit status:
    0  the answer is accessAllowed
    1  there is another answer, or the configuration is refused
    2  the command line is wrong, or a file can't be read
  $ snmpsec manual explain-access
  Ask as check-access does, and print which rows of the configuration decided
  
  Usage: snmpsec explain-access [OPTIONS] <CONFIG> <MODEL> <NAME> <LEVEL> <VIEW> <CONTEXT> <OID>
  
  Arguments:
    <CONFIG>   TOML file with users, contexts, groups, access rows and families
    <MODEL>    Number of the security model: 3 is the user-based one
    <NAME>     Security name: with model 3 the user's name
    <LEVEL>    noAuthNoPriv, authNoPriv or authPriv
    <VIEW>     read, write or notify
    <CONTEXT>  Name of the context; @ is the default one, with the empty name
    <OID>      The variable, as 1.3.6.1.2.1.1.5.0: no name, no dot in front
  
  Options:
        --why   After a refusal, print on standard error what is wrong and what is expected
    -h, --help  Print help
  
  After the answer it prints the rows that decided, as far as it came: context POSITION,
  group POSITION NAME, access POSITION, view NAME, family POSITION. A position counts the
  rows of a table in CONFIG, from 0.
  
  Example: snmpsec explain-access examples/access.toml 3 nagios authPriv read @ 1.3.6.1.2.1.1.5.0
  
  Exit status:
    0  the answer is accessAllowed
    1  there is another answer, or the configuration is refused
    2  the command line is wrong, or a file can't be read
  $ snmpsec manual who-sees
  Print who may read, write or be notified of a variable: MODEL NAME LEVEL VIEW CONTEXT
  
  Usage: snmpsec who-sees [OPTIONS] <CONFIG> <OID> [VIEW]
  
  Arguments:
    <CONFIG>  TOML file with users, contexts, groups, access rows and families
    <OID>     The variable, as 1.3.6.1.2.1.1.5.0: no name, no dot in front
    [VIEW]    read, write or notify; each of them if left out
  
  Options:
        --users  Print the lines alone of names that are users of CONFIG and support the level
        --why    After a refusal, print on standard error what is wrong and what is expected
        --below  Print who sees OID or some name below it, and not only who sees OID itself
    -h, --help   Print help
  
  It prints a line for each question of OID that check-access answers by accessAllowed. A
  name that no group row has sees nothing, and so does everyone in a context that CONFIG
  doesn't have. A higher level may see less. With --below it prints a line for each that sees OID
  or some name below it, as 1.3.6.1.2.1.2.2 for a row of ifTable.
  
  Example: snmpsec who-sees examples/access.toml 1.3.6.1.2.1.1.5.0 read
  
  Exit status:
    0  a line is printed
    1  nobody may, or the configuration is refused
    2  the command line is wrong, or a file can't be read
  $ snmpsec manual sees
  Print what a user may read, write or be notified of: LEVEL VIEW CONTEXT and subtrees
  
  Usage: snmpsec sees [OPTIONS] <CONFIG> <MODEL> <NAME>
  
  Arguments:
    <CONFIG>  TOML file with users, contexts, groups, access rows and families
    <MODEL>   Number of the security model: 3 is the user-based one
    <NAME>    Security name: with model 3 the user's name
  
  Options:
        --why   After a refusal, print on standard error what is wrong and what is expected
    -h, --help  Print help
  
  For each level, view and context it prints either the one answer that every variable
  gets, or lines of + or - with a subtree. The last line whose subtree has the variable
  decides: + allows it, - doesn't. No line decides on any other variable, which isn't
  allowed. An arc * may be any number.
  
  Example: snmpsec sees examples/access.toml 3 nagios
  
  Exit status:
    0  a line with + is printed
    1  nothing is allowed, or the configuration is refused
    2  the command line is wrong, or a file can't be read
  $ snmpsec manual check-config
  Read a configuration: print how many rows each table has, or what is wrong with it
  
  Usage: snmpsec check-config [OPTIONS] <CONFIG>
  
  Arguments:
    <CONFIG>  TOML file with users, contexts, groups, access rows and families
  
  Options:
        --why   After a refusal, print on standard error what is wrong and what is expected
    -h, --help  Print help
  
  Example: snmpsec check-config examples/access.toml
  
  Exit status:
    0  the configuration is read
    1  it is refused, and standard error says why
    2  the command line is wrong, or a file can't be read
  $ snmpsec manual import-snmpd
  Print the configuration that files of net-snmp's snmpd come to
  
  Usage: snmpsec import-snmpd [OPTIONS] <FILE>...
  
  Arguments:
    <FILE>...  A file as /etc/snmp/snmpd.conf, at most 16 MiB
  
  Options:
        --strict          Exit with status 1 if the agent may decide otherwise than the configuration
        --why             After a refusal, print on standard error what is wrong and what is expected
        --no-include      Don't open the files that includeFile and includeDir name
        --context <NAME>  A context that the agent has beside the default one; may be repeated
    -h, --help            Print help
  
  It prints on standard error a line FILE:LINE: KIND: DIRECTIVE: WHY for each line of FILE
  that isn't taken over, and for each row that another row overrides.
  
  Example: snmpsec import-snmpd /etc/snmp/snmpd.conf /var/lib/snmp/snmpd.conf > config.toml
  
  Exit status:
    0  the configuration is printed
    1  with --strict, if the agent may decide otherwise: a line is left out, refused by
       snmpd, undefined, differs, or depends on the order
    2  the command line is wrong, or a file can't be read
  $ snmpsec manual replay
  Process a log of datagrams as a manager does: print a line for each, and then the clocks
  
  Usage: snmpsec replay [OPTIONS] <CONFIG> <CLOCKS> [LOG]
  
  Arguments:
    <CONFIG>  TOML file with the manager's users
    <CLOCKS>  Saved clocks that the manager begins with, at most 16 MiB
    [LOG]     Lines MOMENT HEX: when a datagram came, in whole seconds, and its octets; instead of --from
  
  Options:
        --moment <MOMENT>        When the clocks of a file without timestamps were seen, in seconds; 0 if left out
        --why                    After a refusal, print on standard error what is wrong and what is expected
        --clocks-only            Print the saved clocks alone, and no line for a datagram
        --from-line <N>          Number of the log's first line, 1 to 1000000000000000; 1 if left out
        --from <FILE>            A capture (pcap or pcapng), a log, pasted hex, or a dump as hexdump -C prints it; - is standard input
        --form <FORM>            The form of FILE: pcap or pcapng, log, hex or dump; found by its first octets if left out
        --port <PORT>            A port that the datagrams are from or to; may be repeated; 161 and 162 if left out
        --from-port <FROM_PORT>  Take only datagrams from this port, as 161 for what agents send; both directions if left out
    -h, --help                   Print help
  
  With --from it processes the datagrams of a capture, and needs no log.
  A log has at most 1000000 lines. Replay a longer one in pieces, each with --clocks-only;
  merge-clocks joins the clocks that they print.
  
  Example: snmpsec replay examples/replay/config.toml examples/replay/begin.clocks
           examples/replay/captured.log
  
  Exit status:
    0  the log is replayed to its end
    1  the configuration or the file of clocks is refused
    2  the command line or a line of the log is wrong, or a file can't be read
  $ snmpsec manual merge-clocks
  Print the join of saved clocks: of each engine the greatest boots and time
  
  Usage: snmpsec merge-clocks [OPTIONS] <FILE>...
  
  Arguments:
    <FILE>...  Saved clocks, each at most 16 MiB
  
  Options:
        --moment <MOMENT>  When the clocks of a file without timestamps were seen, in seconds; 0 if left out
        --why              After a refusal, print on standard error what is wrong and what is expected
    -h, --help             Print help
  
  Example: snmpsec merge-clocks examples/station-a.clocks examples/station-b.clocks
  
  Exit status:
    0  the join is printed
    1  a file is refused, with its first wrong line
    2  the command line is wrong, or a file can't be read
  $ snmpsec manual check-clocks
  Print how many engines each file of saved clocks has, or what is wrong with it
  
  Usage: snmpsec check-clocks [OPTIONS] <FILE>...
  
  Arguments:
    <FILE>...  Saved clocks, each at most 16 MiB
  
  Options:
        --why   After a refusal, print on standard error what is wrong and what is expected
    -h, --help  Print help
  
  Example: snmpsec check-clocks examples/station-a.clocks
  
  Exit status:
    0  each file is right
    1  a file is refused, and standard error says why
    2  the command line is wrong, or a file can't be read
  $ snmpsec manual check-log
  Print how many lines a log has, or what is wrong with its first faulty line
  
  Usage: snmpsec check-log [OPTIONS] <LOG>
  
  Arguments:
    <LOG>  A log: lines of a timestamp, a blank and a datagram in hex
  
  Options:
        --why   After a refusal, print on standard error what is wrong and what is expected
    -h, --help  Print help
  
  Example: snmpsec check-log examples/replay/captured.log
  
  Exit status:
    0  the log is right
    1  it is refused, and standard error says why
    2  the command line is wrong, or a file can't be read
  $ snmpsec manual datagrams
  Print the UDP datagrams of a capture as a log for replay, a line MOMENT HEX for each
  
  Usage: snmpsec datagrams [OPTIONS] <FILE>
  
  Arguments:
    <FILE>  A capture (pcap or pcapng), a log, pasted hex, or a dump as hexdump -C prints it; - is standard input
  
  Options:
        --form <FORM>            The form of FILE: pcap or pcapng, log, hex or dump; found by its first octets if left out
        --why                    After a refusal, print on standard error what is wrong and what is expected
        --port <PORT>            A port that the datagrams are from or to; may be repeated; 161 and 162 if left out
        --from-port <FROM_PORT>  Take only datagrams from this port, as 161 for what agents send; both directions if left out
        --moment <MOMENT>        When pasted hex or a dump was received, in seconds; 0 if left out
        --ip                     FILE is dumps of packets from their IP headers on, as tcpdump -x prints them
    -h, --help                   Print help
  
  It counts on standard error the packets that aren't datagrams of these ports, and reports
  each that may be a part of one. Pasted hex is one datagram. A dump is one, unless --ip is given.
  
  Example: snmpsec datagrams examples/replay/captured.pcap |
           snmpsec replay examples/replay/config.toml examples/replay/begin.clocks /dev/stdin
  
  Exit status:
    0  the file is read to its end
    1  it is refused: after what came before, a line 'refused datagrams FILE octet N'
       for a capture, 'refused datagrams FILE line N column M' for hex, and
       'refused datagrams FILE line N' for a dump
    2  the command line is wrong, or a file can't be read
  $ snmpsec manual diagnose
  Print what became of each request in a capture: answered, refused and why, or no answer
  
  Usage: snmpsec diagnose [OPTIONS] <CONFIG> <FILE>
  
  Arguments:
    <CONFIG>  TOML file with the users of the messages
    <FILE>    A capture (pcap or pcapng), a log, pasted hex, or a dump as hexdump -C prints it; - is standard input
  
  Options:
        --form <FORM>      The form of FILE: pcap or pcapng, log, hex or dump; found by its first octets if left out
        --why              After a refusal, print on standard error what is wrong and what is expected
        --port <PORT>      A port that the datagrams are from or to; may be repeated; 161 and 162 if left out
        --moment <MOMENT>  When pasted hex or a dump was received, in seconds; 0 if left out
        --ip               FILE is dumps of packets from their IP headers on, as tcpdump -x prints them
        --json             Print JSON, an object on a line: one for each exchange, and the summary
        --user <NAME>      Print and count only exchanges of this user; may be repeated
        --engine <ENGINE>  Print and count only exchanges of this engine ID in hex; may be repeated
        --agent <AGENT>    Print and count only exchanges with this agent, ADDRESS or ADDRESS:PORT; may be repeated
        --clocks <CLOCKS>  Saved clocks of engines that are known before the capture begins
    -h, --help             Print help
  
  It judges a request as the agent does, and an answer as the manager does. Only what an engine
  sent teaches it the engine's clock. Which side sent a message that can't be opened is a guess by
  the ports, unless one side is named by --agent.
  
  Example: snmpsec diagnose examples/no-answer.toml examples/diagnose.pcap
  
  Exit status:
    0  each request was answered without an error
    1  something failed, or the configuration or the clocks are refused
    2  the command line or FILE is wrong, or a file can't be read
  $ snmpsec manual manual
  Print the help of a command, or of all, on standard output
  
  Usage: snmpsec manual [OPTIONS] [COMMAND]
  
  Arguments:
    [COMMAND]  The command; the list of all commands if left out
  
  Options:
        --why   After a refusal, print on standard error what is wrong and what is expected
    -h, --help  Print help
  
  It prints on standard output what --help prints on standard error, for a pager.
  
  Example: snmpsec manual show | less
  
  Exit status:
    0  the help is printed
    2  there is no such command, or the command line is wrong
  $ snmpsec manual version
  Print the name and the version of the program
  
  Usage: snmpsec version [OPTIONS]
  
  Options:
        --why   After a refusal, print on standard error what is wrong and what is expected
    -h, --help  Print help
  
  Exit status:
    0  the version is printed
    2  the command line is wrong
