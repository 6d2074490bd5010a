# Completes the words of ocicp in bash. tools/manual makes this file from the help texts of the program.
_ocicp() {
  local word=${COMP_WORDS[COMP_CWORD]} flags='' valued='' last='' kinds=() words=() at line
  COMPREPLY=()
  if ((COMP_CWORD == 1)); then
    mapfile -t COMPREPLY < <(compgen -W 'copy tag untag prune repair tags resolve predecessors tree cat verify mem explain help --help --version' -- "$word")
    return
  fi
  case ${COMP_WORDS[1]} in
    copy)
      flags='--archive --all --match --untagged --platform --referrers --depth --artifact-type --descend --prune --workers --progress --dry-run --hint --json --no-wait --no-sync --help' valued='--match --platform --depth --artifact-type --workers' kinds=(folder tag folder tag)
      [[ " ${COMP_WORDS[*]} " != *' --all '* ]] || kinds=(folder folder)
      ;;
    tag)
      flags='--hint --json --no-wait --no-sync --help' kinds=(folder tag none)
      ;;
    untag)
      flags='--hint --json --no-wait --no-sync --help' kinds=(folder tag)
      ;;
    prune)
      flags='--dry-run --untagged --leftovers --hint --json --no-wait --no-sync --help' kinds=(folder)
      ;;
    repair)
      flags='--dry-run --workers --hint --json --no-wait --no-sync --help' valued='--workers' last=folder
      ;;
    tags)
      flags='--all --hint --json --help' kinds=(folder)
      ;;
    resolve)
      flags='--platform --hint --json --help' valued='--platform' kinds=(folder tag)
      ;;
    predecessors)
      flags='--artifact-type --hint --json --help' valued='--artifact-type' kinds=(folder tag)
      ;;
    tree)
      flags='--referrers --platform --hint --json --help' valued='--platform' kinds=(folder tag)
      ;;
    cat)
      flags='--platform --hint --json --help' valued='--platform' kinds=(folder tag)
      ;;
    verify)
      flags='--tags --workers --hint --json --help' valued='--workers' kinds=(folder tag)
      ;;
    mem)
      flags='--workers --sha512 --hint --json --help' valued='--workers' last=file
      ;;
    explain)
      flags='--hint --json --help' kinds=(none)
      ;;
    help)
      kinds=(command)
      ;;
  esac
  for ((at = 2; at < COMP_CWORD; at++)); do
    if [[ ${COMP_WORDS[at]} != -* ]]; then
      words+=("${COMP_WORDS[at]}")
    elif [[ " $valued " == *" ${COMP_WORDS[at]} "* ]]; then
      ((at++))
    fi
  done
  ((at == COMP_CWORD)) || return 0
  if [[ $word == -* ]]; then
    mapfile -t COMPREPLY < <(compgen -W "$flags" -- "$word")
    return
  fi
  case ${kinds[${#words[@]}]:-$last} in
    folder)
      compopt -o filenames 2>/dev/null
      mapfile -t COMPREPLY < <(compgen -d -- "$word")
      ;;
    file)
      compopt -o filenames 2>/dev/null
      mapfile -t COMPREPLY < <(compgen -f -- "$word")
      ;;
    command)
      mapfile -t COMPREPLY < <(compgen -W 'copy tag untag prune repair tags resolve predecessors tree cat verify mem explain' -- "$word")
      ;;
    tag)
      # (not by `compgen -W`, which would run what is in a tag)
      while IFS= read -r line; do
        line=${line% * * *}
        [[ $line != "$word"* ]] || COMPREPLY+=("$(printf %q "$line")")
      done < <(ocicp tags "${words[-1]/#\~\//$HOME/}" 2>/dev/null)
      ;;
  esac
}
complete -F _ocicp ocicp
