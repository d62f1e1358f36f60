# Completion of cidr for bash: commands, then the options of each, and files.
_cidr() {
  local word=${COMP_WORDS[COMP_CWORD]} options="--strict --skip-bad --help"
  if [ "$COMP_CWORD" = 1 ]; then
    COMPREPLY=($(compgen -W "merge common invert except diff count split compare has grep table help --help" -- "$word"))
    return
  fi
  case ${COMP_WORDS[1]} in
    merge | common | invert | diff) options="$options --v4 --v6 --ranges --single --json --prefix --suffix --ipset --nft --max-prefixes" ;;
    except) options="$options --v4 --v6 --ranges --single --json --prefix --suffix --ipset --nft --max-prefixes --without" ;;
    split) options="$options --v4 --v6 --at --prefix --suffix" ;;
    count) options="$options --v4 --v6" ;;
    has) options="$options --quiet" ;;
    grep) options="$options --quiet --invert-match --count --line-number" ;;
    table)
      if [ "$COMP_CWORD" = 2 ]; then
        COMPREPLY=($(compgen -W "merge longest disjoint shortest only without select get values check diff help --help" -- "$word"))
        return
      fi
      options="$options --csv --decimal --header"
      case ${COMP_WORDS[2]} in
        longest) ;;
        *) options="$options --longest" ;;
      esac
      case ${COMP_WORDS[2]} in
        get) ;;
        *) options="$options --v4 --v6" ;;
      esac
      case ${COMP_WORDS[2]} in
        merge | longest | disjoint | only | without) options="$options --lines --json --nginx --nft" ;;&
        shortest) options="$options --default --lines --json --nginx" ;;
        only | without) options="$options --in" ;;
        select) options="$options --ranges --single --json" ;;
        get) options="$options --quiet" ;;
      esac
      ;;
  esac
  case $word in
    -*) COMPREPLY=($(compgen -W "$options" -- "$word")) ;;
    *) COMPREPLY=($(compgen -f -- "$word")) ;;
  esac
}
complete -F _cidr cidr
