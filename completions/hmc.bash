# Completions of hmc for bash: source this file, or copy it to ~/.local/share/bash-completion/completions/hmc.
_hmc() {
  local word=${COMP_WORDS[COMP_CWORD]}
  COMPREPLY=()
  case ${COMP_WORDS[COMP_CWORD - 1]} in
    --message-format) COMPREPLY=($(compgen -W 'human json' -- "$word")); return ;;
    --report-format) COMPREPLY=($(compgen -W 'text json' -- "$word")); return ;;
    --color) COMPREPLY=($(compgen -W 'auto always never' -- "$word")); return ;;
    --jobs|-j|--at|--stdin-name) return ;;
  esac
  case $word in
    -*) COMPREPLY=($(compgen -W '--jobs --journal --plan --at --explain --message-format --report-format --color --quiet --stdin-name --help --version -j -e -q -h -V' -- "$word")) ;;
    *) COMPREPLY=($(compgen -f -X '!*.hs' -- "$word") $(compgen -d -- "$word")) ;;
  esac
}
complete -o filenames -F _hmc hmc
