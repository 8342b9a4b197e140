# What tools/program.sh rarely needs: the sums of a program's sources, and a program that is compiled without a proof.

# Whether the executable's sums are those of the sources. A file's time alone tells nothing of that: a checkout touches
# files, and another text can be given its old time. A new file is read only if one that has a sum names it.
#
# The answer is kept in NAME.stamp. It isn't if something changed in the 2 seconds before: the clock of a filesystem may
# be as coarse as that, and a later change would get the same time. Nor is it beside another user's executable.
make_sums() ( # EXECUTABLE
  cd "$here" || exit
  new= answer=these
  if [ -O "$1" ] && new=$(mktemp -d "$1.stamp.XXXXXX" 2> /dev/null); then
    trap 'rm -rf "$new"' EXIT
    touch -r "$new" -d '-2 seconds' "$new/since"
    mapfile -t places < <(sed 's/^[^ ]*  //; /^crates\//s,/[^/]*$,,' "$1.sums" | sort -u)
    places+=("${1#"$here/"}" "${1#"$here/"}.sums" tools/program.sh tools/program_made.sh)
    (look these "${places[@]}") > "$new/these" 2> /dev/null
  fi
  sha256sum --check --status --strict "$1.sums" 2> /dev/null
  case $? in 0) ;; 1) answer=others ;; *) exit 2 ;; esac
  if [ -n "$new" ] && [ -z "$(find -L "${places[@]}" -maxdepth 1 -newercm "$new/since" 2>&1)" ]; then
    [ $answer = these ] || sed -i "1s/these/$answer/" "$new/these"
    mv -f "$new/these" "$1.stamp"
  fi
  [ $answer = these ]
)

# Compiles the program. If it can't be, `rt try` runs it.
compile() { # WORD..
  local said status
  command -v rt > /dev/null \
      || { echo "snmpsec: there is no command rt: install the Rattle kit, and put its folder bin on the path" >&2; exit 2; }
  say "compiling the program without a proof, in a minute or two; later runs start at once"
  said=$(cd "$here" && tools/unproved --keep "$crate" 2>&1 < /dev/null)
  status=$?
  [ $status -ge 1 ] || return 0
  printf '%s\n' "$said" >&2
  [ $status = 1 ] || exit $status
  say "it can't be compiled that way here. rt try runs it, and compiles it at each run. Nothing of this build is proved; ./prove proves it"
  try_it "$@"
}

# Runs the program by `rt try`, which compiles it anew each time. It sees standard input and the files that are named,
# below this folder.
try_it() { # WORD..
  local files=() word
  for word in "$@"; do
    case "$word" in /* | *..* | *=*) ;; *) [ ! -f "$word" ] || files+=(--data "$word=$PWD/$word") ;; esac
  done
  cd "$here/crates/$crate" && exec rt try ${files[@]+"${files[@]}"} -- "$@"
}
