# Completion of snmpsec-gate's words for bash: `source lib/gate/snmpsec-gate.bash`. Written by tools/gate-completions.
_snmpsec_gate() {
  local word=${COMP_WORDS[COMP_CWORD]}
  COMPREPLY=()
  case ${COMP_WORDS[COMP_CWORD - 1]} in
    --listen) return ;;
    --user) mapfile -t COMPREPLY < <(compgen -u -- "$word"); return ;;
    --log-datagrams) mapfile -t COMPREPLY < <(compgen -f -- "$word"); return ;;
    --counts) mapfile -t COMPREPLY < <(compgen -f -- "$word"); return ;;
  esac
  case $word in
    -*) mapfile -t COMPREPLY < <(compgen -W '--check --listen --user --log-datagrams --counts --version --help' -- "$word") ;;
    *) mapfile -t COMPREPLY < <(compgen -f -- "$word") ;;
  esac
}

complete -o filenames -F _snmpsec_gate snmpsec-gate
