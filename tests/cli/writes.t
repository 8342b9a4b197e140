Standard output that can't be written.

The device is full.

  $ : > empty; echo 'snmp-clocks 2' > clocks; echo 30 > hex; echo '5 30' > log; echo 'rouser ann' > conf
  $ snmpsec version > /dev/full
  ! snmpsec: cannot write
  [2]
  $ snmpsec show 30 > /dev/full
  ! snmpsec: cannot write
  [2]
  $ snmpsec manual show > /dev/full
  ! snmpsec: cannot write
  [2]
  $ snmpsec merge-clocks clocks > /dev/full
  ! snmpsec: cannot write
  [2]
  $ snmpsec datagrams hex > /dev/full
  ! snmpsec: cannot write
  [2]
  $ snmpsec show --from hex > /dev/full
  ! snmpsec: cannot write
  [2]
  $ snmpsec replay empty clocks log > /dev/full
  ! snmpsec: cannot write
  [2]
  $ snmpsec replay --clocks-only empty clocks log > /dev/full
  ! snmpsec: cannot write
  [2]
  $ snmpsec import-snmpd conf > /dev/full
  ! snmpsec: cannot write
  [2]
  $ snmpsec check-log log > /dev/full
  ! snmpsec: cannot write
  [2]

The reader of the pipe has ended.

  $ seq -f '%.0f 30' 100000 > log; snmpsec replay empty clocks log | head -n 2
  1 1 refused 1 NotMessage
  2 2 refused 1 NotMessage
