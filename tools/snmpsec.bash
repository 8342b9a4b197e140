# Completion of snmpsec's words for bash: `source tools/snmpsec.bash`. Written by tools/completions.

# The word that comes next of those of the command, without the options and their values.
_snmpsec_place() {
  local at=2 place=1
  while [ "$at" -lt "$COMP_CWORD" ]; do
    case ${COMP_WORDS[at]} in
      --agent | --clocks | --context | --engine | --form | --from | --from-line | --moment | --port | --user) at=$((at + 1)) ;;
      --*) ;;
      *) place=$((place + 1)) ;;
    esac
    at=$((at + 1))
  done
  echo "$place"
}

_snmpsec() {
  local word=${COMP_WORDS[COMP_CWORD]} command=${COMP_WORDS[1]-} choices='' files=''
  COMPREPLY=()
  if [ "$COMP_CWORD" -eq 1 ]; then
    choices='show open check-access explain-access who-sees sees check-config import-snmpd replay merge-clocks check-clocks check-log datagrams diagnose manual version'
  else
    case ${COMP_WORDS[COMP_CWORD - 1]} in
      --clocks | --from)
        mapfile -t COMPREPLY < <(compgen -f -- "$word")
        return
        ;;
      --agent | --clocks | --context | --engine | --form | --from | --from-line | --moment | --port | --user) return ;;
    esac
    case $command:$(_snmpsec_place) in
      open:1) files=yes ;;
      check-access:1) files=yes ;;
      check-access:2) choices='3' ;;
      check-access:4) choices='noAuthNoPriv authNoPriv authPriv' ;;
      check-access:5) choices='read write notify' ;;
      check-access:6) choices='@' ;;
      explain-access:1) files=yes ;;
      explain-access:2) choices='3' ;;
      explain-access:4) choices='noAuthNoPriv authNoPriv authPriv' ;;
      explain-access:5) choices='read write notify' ;;
      explain-access:6) choices='@' ;;
      who-sees:1) files=yes ;;
      who-sees:3) choices='read write notify' ;;
      sees:1) files=yes ;;
      sees:2) choices='3' ;;
      check-config:1) files=yes ;;
      import-snmpd:*) files=yes ;;
      replay:1) files=yes ;;
      replay:2) files=yes ;;
      replay:3) files=yes ;;
      merge-clocks:*) files=yes ;;
      check-clocks:*) files=yes ;;
      check-log:1) files=yes ;;
      datagrams:1) files=yes ;;
      diagnose:1) files=yes ;;
      diagnose:2) files=yes ;;
      manual:1) choices='show open check-access explain-access who-sees sees check-config import-snmpd replay merge-clocks check-clocks check-log datagrams diagnose manual version' ;;
    esac
    case $command in
      show) choices="$choices --names --why --community --from --form --port --from-port --moment --ip" ;;
      open) choices="$choices --names --why --from --form --port --from-port --moment --ip" ;;
      check-access) choices="$choices --why" ;;
      explain-access) choices="$choices --why" ;;
      who-sees) choices="$choices --users --why --below" ;;
      sees) choices="$choices --why" ;;
      check-config) choices="$choices --why" ;;
      import-snmpd) choices="$choices --strict --why --no-include --context" ;;
      replay) choices="$choices --moment --why --clocks-only --from-line --from --form --port --from-port" ;;
      merge-clocks) choices="$choices --moment --why" ;;
      check-clocks) choices="$choices --why" ;;
      check-log) choices="$choices --why" ;;
      datagrams) choices="$choices --form --why --port --from-port --moment --ip" ;;
      diagnose) choices="$choices --form --why --port --moment --ip --json --user --engine --agent --clocks" ;;
      manual) choices="$choices --why" ;;
      version) choices="$choices --why" ;;
    esac
  fi
  [ -z "$files" ] || mapfile -t COMPREPLY < <(compgen -f -- "$word")
  [ -z "$choices" ] || mapfile -t -O "${#COMPREPLY[@]}" COMPREPLY < <(compgen -W "$choices" -- "$word")
}

complete -o filenames -F _snmpsec snmpsec ./snmpsec
