#!/usr/bin/env bash
# Tries the ways of docs/large-logs.md on a small log: each gives the octets of one replay. What isn't installed is
# reported by a line and left out: apt-get install parallel python3-distributed openssh-server rsync python3-matplotlib
#
# usage: test.sh [PROGRAM]        (./snmpsec of this repository)
set -u
here=$(cd "$(dirname "$0")" && pwd)
SNMPSEC=$(readlink -f -- "${1:-$here/../../snmpsec}")
export SNMPSEC
work=$(mktemp -d)
passed=0 failed=0
pids=()
trap 'for p in "${pids[@]}"; do kill "$p" 2>/dev/null; done; wait 2>/dev/null; rm -rf "$work"' EXIT
export PARALLEL_HOME=$work/parallel
cd "$work" || exit 1

check() { # NAME FILE FILE: both have the same octets
  if cmp -s "$2" "$3"; then passed=$((passed + 1)); else failed=$((failed + 1)); echo "FAILED $1"; head -3 "$2" "$3"; fi
}

"$here/make-log" 10000 100 7 > log
"$here/make-log" --config > config.toml
head -1000 log > first
"$SNMPSEC" replay config.toml /dev/stdin first <<< 'snmp-clocks 1' | sed -n '/^snmp-clocks/,$p' > begin.clocks
"$SNMPSEC" replay config.toml begin.clocks log > printed
sed -n '/^snmp-clocks/,$p' printed > saved
sed '/^snmp-clocks/,$d' printed > lines

# ---- the program alone
"$SNMPSEC" replay --clocks-only config.toml begin.clocks log > told
check "the saved text alone" saved told
split -l 1000 -d -a 4 log turn.
cp begin.clocks held
first=1
for piece in turn.????; do
  "$SNMPSEC" replay --from-line $first config.toml held "$piece" > told
  sed '/^snmp-clocks/,$d' told >> lines.turn
  sed -n '/^snmp-clocks/,$p' told > held
  first=$((first + 1000))
done
check "pieces one after another: clocks" saved held
check "pieces one after another: lines" lines lines.turn

# ---- GNU parallel
if ! command -v parallel > /dev/null; then
  echo "skipped: GNU parallel isn't installed"
else
  split -l 2000 -d -a 4 log piece.
  parallel --will-cite -j 4 --halt now,fail=1 "$SNMPSEC" replay --clocks-only config.toml begin.clocks {} '>' \
      {}.clocks ::: piece.????
  "$SNMPSEC" merge-clocks piece.????.clocks > told
  check "pieces side by side" saved told
  "$SNMPSEC" merge-clocks piece.0003.clocks piece.000?.clocks piece.0001.clocks > told
  check "pieces in another order, some twice" saved told
  "$here/whole" -j 4 -l 2000 config.toml begin.clocks log > told
  check "lines and clocks of pieces" printed told
  head -c 100 log | cat piece.0000 - > torn
  "$here/whole" -j 4 -l 1000 config.toml begin.clocks torn > told 2> why
  [ $? -ne 0 ] && grep -q "^snmpsec: log line 2001$" why
  check "a line that is torn is reported by its number in the whole" <(echo 0) <(echo $?)
fi

# ---- over ssh, to this machine
if ! command -v parallel > /dev/null || ! command -v rsync > /dev/null || ! [ -x /usr/sbin/sshd ]; then
  echo "skipped: no ssh server or no rsync is installed (openssh-server, rsync)"
else
  mkdir -m 700 keys
  ssh-keygen -q -t ed25519 -N '' -f keys/host
  ssh-keygen -q -t ed25519 -N '' -f keys/user
  port=$((20000 + $$ % 10000))
  printf '%s\n' "Port $port" "ListenAddress 127.0.0.1" "HostKey $work/keys/host" \
      "AuthorizedKeysFile $work/keys/user.pub" "PidFile none" "StrictModes no" > keys/sshd
  [ -d /run/sshd ] || mkdir -p /run/sshd
  /usr/sbin/sshd -D -f keys/sshd 2> keys/told &
  pids+=($!)
  for _ in {1..50}; do
    sleep 0.1
    (exec 3<> "/dev/tcp/127.0.0.1/$port") 2> /dev/null && break
  done
  ssh="ssh -p $port -i $work/keys/user -o StrictHostKeyChecking=no -o UserKnownHostsFile=/dev/null -o LogLevel=ERROR"
  mkdir here
  cp config.toml begin.clocks here
  split -l 2000 -d -a 4 log here/piece.
  (cd here && parallel --will-cite --ssh "$ssh" -S 2/127.0.0.1 --workdir .pieces-of-a-log --basefile config.toml \
      --basefile begin.clocks --transferfile {} --return {}.clocks --cleanup \
    "$SNMPSEC" replay --clocks-only config.toml begin.clocks {} '>' {}.clocks ::: piece.????) 2> keys/parallel
  if "$SNMPSEC" merge-clocks here/piece.????.clocks > told; then
      check "pieces over ssh" saved told
  else
      failed=$((failed + 1))
      echo "FAILED pieces over ssh"
      cat keys/told keys/parallel
  fi
fi

# ---- Dask
python=
for it in python3 /usr/bin/python3; do
  if "$it" -c 'import dask.bag, distributed' 2> /dev/null; then python=$it; break; fi
done
if [ -z "$python" ]; then
  echo "skipped: Dask isn't installed (python3-distributed)"
else
  scheduler=tcp://127.0.0.1:$((30000 + $$ % 10000))
  "$python" -m distributed.cli.dask_scheduler --host 127.0.0.1 --port "${scheduler##*:}" --dashboard-address \
      127.0.0.1:0 > scheduler.told 2>&1 &
  pids+=($!)
  "$python" -m distributed.cli.dask_worker "$scheduler" --nworkers 2 --nthreads 1 --host 127.0.0.1 --no-dashboard \
      --local-directory "$work" > worker.told 2>&1 &
  pids+=($!)
  timeout 300 "$python" "$here/over_dask.py" --scheduler "$scheduler" --block 500000 config.toml begin.clocks \
      log > told 2> why || cat why
  check "a bag of pieces over a scheduler and workers" saved told
fi

# ---- the plot
python=
for it in python3 /usr/bin/python3; do
  if "$it" -c 'import matplotlib' 2> /dev/null; then python=$it; break; fi
done
if [ -z "$python" ]; then
  echo "skipped: matplotlib isn't installed (python3-matplotlib)"
else
  "$python" "$here/../../tools/clocks-plot" printed | grep -o "accepted ([0-9]*)" | tail -1 > told
  check "a plot counts what was accepted" <(echo "accepted ($(grep -c ' accepted ' printed))") told
fi
echo "$passed passed, $failed failed"
[ "$failed" -eq 0 ]
