# Completion of gatekeeper's words for bash. Source it, or put it into bash-completion's folder as `gatekeeper`.

_gatekeeper() {
  # What was typed, cut at blanks alone: bash also cuts at colons, which stand in `:memory:`.
  local -a typed=()
  read -ra typed <<<"${COMP_LINE:0:COMP_POINT}"
  [[ ${COMP_LINE:0:COMP_POINT} != *[[:blank:]] ]] || typed+=("")
  local last=$((${#typed[@]} - 1))
  local word=${typed[last]} previous=${typed[last - 1]}
  local commands="session compile compileset dump assess add remove enable disable expire switch status list import rehearse"
  local -a words=()
  local i

  # The words so far that are no option and no option's name of a file.
  for ((i = 1; i < last; i++)); do
    case ${typed[i]} in
      --facts) i=$((i + 1)) ;;
      --facts=* | --) ;;
      *) words+=("${typed[i]}") ;;
    esac
  done

  if [ "$previous" = --facts ]; then
    compopt -o filenames
    COMPREPLY=($(compgen -f -- "$word"))
    return
  fi
  case ${#words[@]} in
    0)
      [[ $word == :* ]] || compopt -o filenames
      COMPREPLY=($(compgen -W ":memory: --facts --help --version" -- "$word") $(compgen -f -- "$word"))
      # Only what stands behind the last colon is put in the place of the word.
      [[ $word != *:* ]] || COMPREPLY=("${COMPREPLY[@]#"${word%"${word##*:}"}"}")
      ;;
    1) COMPREPLY=($(compgen -W "$commands --facts" -- "$word")) ;;
    *)
      case ${words[1]}:${#words[@]} in
        assess:2) COMPREPLY=($(compgen -W "execute install open" -- "$word")) ;;
        assess:3 | assess:4 | compile:2 | compileset:2 | dump:2 | import:2)
          compopt -o filenames
          COMPREPLY=($(compgen -f -- "$word"))
          ;;
        add:3) COMPREPLY=($(compgen -W "execute install open" -- "$word")) ;;
        add:4) COMPREPLY=($(compgen -W "allow deny" -- "$word")) ;;
        remove:3 | enable:3 | disable:3 | expire:3) COMPREPLY=($(compgen -W "id label" -- "$word")) ;;
        remove:5 | enable:5 | disable:5 | expire:5) COMPREPLY=($(compgen -W "execute install open any" -- "$word")) ;;
        switch:3) COMPREPLY=($(compgen -W "on off" -- "$word")) ;;
        *) COMPREPLY=() ;;
      esac
      ;;
  esac
}

complete -F _gatekeeper gatekeeper
