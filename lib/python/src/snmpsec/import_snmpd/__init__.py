"""`snmpsec import-snmpd`: the configuration that files of net-snmp's snmpd.conf come to. Not proved.

It reads lines as snmpd 5.9.3 does, and prints the users and the rows that snmpd then holds. What it prints is for
`snmpsec check-config`, whose reader is proved. Which access row RFC 3415 chooses it asks the program.

It needs Python's standard library alone, and neither the rest of the package nor libsnmpsec: `snmpsec` runs this folder
by python3. With the library there, `python3 -m snmpsec.import_snmpd` is the same.

words       how lines are cut, and what single words stand for
lines       what a line is: nothing, a section, or a directive with the text after it
rows        the rows of `group`, `access`, `setaccess`, `authaccess` and `view`
users       the users of `createUser`
simple      `rouser` and its like, and the lines that snmpd makes of them
items       what each line of a file makes
included    files, and those that their lines name
tables      what snmpd holds after the lines, and which of the rows count
choices     for which messages snmpd and RFC 3415 choose access rows with other views
notes       what is said of lines and rows
printed     the configuration's text
command     the command line
"""
