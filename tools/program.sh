# Finds the program $name of the checkout $here: the proved one (./prove) if it was built from these sources. If not, it
# is compiled without a proof, once, and a line on standard error says so before each run. SNMPSEC_QUIET=1 leaves that
# line out. Sets $program. ./snmpsec reads this at each call, and program_made.sh if there is more to do.
crate=${name//-/_}
out=$here/crates/$crate/out

# Whether this executable was made from the sources as they are. Their sums say so. NAME.stamp keeps that answer, with
# what `look` prints, and is believed while `look` prints the same. A broken stamp isn't, nor another user's.
is_of_these() { # EXECUTABLE
  [ -x "$1" ] && [ -e "$1.sums" ] || return
  local answer count places
  if [ -O "$1.stamp" ] && { read -r answer count && mapfile -t -n "$count" places; } < "$1.stamp" 2> /dev/null \
      && [[ $answer = these || $answer = others ]] \
      && look "$answer" "${places[@]}" 2> /dev/null | cmp -s - "$1.stamp"; then
    [ "$answer" = these ]
  else
    . "$here/tools/program_made.sh" && make_sums "$1"
  fi
}

# Prints the answer and the places; then, of each place and each file in it, the size, the inode, and the time at which
# the inode changed, to the nanosecond. That one changes with the text's own time, and `touch -d` can't set it back. Run
# this in a shell of its own: it ends it.
look() { # ANSWER PLACE..
  cd "$here" && echo "$1 $(($# - 1))" && shift && printf '%s\n' "$@" \
      && LC_ALL=C exec find -L "$@" -maxdepth 1 -printf '%s %i %C@\n'
}

say() {
  [ "${SNMPSEC_QUIET-}" = 1 ] || echo "snmpsec: $1" >&2
}

program=$out/$crate
if ! is_of_these "$program"; then
  program=$out/unproved/$crate
  is_of_these "$program" || { . "$here/tools/program_made.sh" && compile "$@"; }
  say "nothing of this build is proved; ./prove proves it, in about 21 minutes"
fi
