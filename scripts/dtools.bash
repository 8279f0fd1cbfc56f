# Completion of bash for dtools and its commands: letters, and the services of SVDIR, also by their names, or else of
# /etc/dtools/service.
_dtools_services() {
  local folder=${SVDIR:-/etc/dtools/service} service
  local found=()
  for service in "$folder"/*/; do
    [ -d "$service" ] || continue
    service=${service%/}
    found+=("$service")
    [ -n "${SVDIR:-}" ] && found+=("${service##*/}")
    [ -d "$service/log" ] && found+=("$service/log")
  done
  mapfile -t COMPREPLY < <(compgen -W "${found[*]}" -- "$word")
  [ ${#COMPREPLY[@]} -gt 0 ] || mapfile -t COMPREPLY < <(compgen -d -- "$word")
}

_dtools() {
  local word=${COMP_WORDS[COMP_CWORD]} before=${COMP_WORDS[COMP_CWORD - 1]} command=${COMP_WORDS[0]##*/}
  if [ "$command" = dtools ]; then
    if [ "$COMP_CWORD" = 1 ]; then
      mapfile -t COMPREPLY < <(compgen -W 'svscan supervise svc svstat svok wait restart multilog tai64n tai64nlocal envdir readproctitle sim trace why help version' -- "$word")
      return
    fi
    command=${COMP_WORDS[1]}
  fi
  case $command:$word:$before in
    svc:-*) mapfile -t COMPREPLY < <(compgen -W '-u -d -o -p -c -h -a -i -t -k -x -1 -2 -q -dx -W' -- "$word") ;;
    svstat:-*) mapfile -t COMPREPLY < <(compgen -W '-l --json --metrics --html' -- "$word") ;;
    why:-*) mapfile -t COMPREPLY < <(compgen -W '--timeline' -- "$word") ;;
    wait:-* | svwait:-*) mapfile -t COMPREPLY < <(compgen -W '-u -d -x -r -t' -- "$word") ;;
    restart:-* | svrestart:-*) mapfile -t COMPREPLY < <(compgen -W '-t' -- "$word") ;;
    wait:*:-t | svwait:*:-t | restart:*:-t | svrestart:*:-t) ;;
    svc:* | svstat:* | svok:* | why:* | wait:* | svwait:* | restart:* | svrestart:*) _dtools_services ;;
    svscan:* | supervise:*) mapfile -t COMPREPLY < <(compgen -d -- "$word") ;;
    help:*) mapfile -t COMPREPLY < <(compgen -W 'svscan supervise svc svstat svok wait restart multilog tai64n tai64nlocal envdir readproctitle sim trace why svscan-run svscan-stop dtools-service setuidgid envuidgid softlimit setlock pgrphack fghack' -- "$word") ;;
    sim:*) mapfile -t COMPREPLY < <(compgen -W 'table' -- "$word") ;;
    trace:*:--break)
      mapfile -t COMPREPLY < <(compgen -W 'byte: phase:up phase:down phase:gone signal:TERM signal:KILL' -- "$word")
      ;;
    trace:*) mapfile -t COMPREPLY < <(compgen -W '--break --local' -f -- "$word") ;;
    *) mapfile -t COMPREPLY < <(compgen -f -- "$word") ;;
  esac
}
complete -o filenames -F _dtools dtools svc svstat svok svwait svrestart
complete -u -c setuidgid envuidgid
complete -f -c setlock
complete -c softlimit pgrphack fghack
