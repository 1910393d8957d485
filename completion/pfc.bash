# Completion of pfc and pfcwalk for bash: source this file.
_pfc() {
    local word=${COMP_WORDS[COMP_CWORD]} before=${COMP_WORDS[COMP_CWORD - 1]}
    local options='--seed --unfair --limit --input --script --list --code --make --help --version'
    if [ "${COMP_WORDS[0]##*/}" = pfcwalk ]; then options='--seed --unfair --limit --input --script --list --trace --races --help --version'; fi
    COMPREPLY=()
    case $before in
    --seed | --limit | --make) return ;;
    --input | --script)
        mapfile -t COMPREPLY < <(compgen -f -- "$word")
        compopt -o filenames
        return
        ;;
    esac
    case $word in
    -*) mapfile -t COMPREPLY < <(compgen -W "$options" -- "$word") ;;
    *)
        mapfile -t COMPREPLY < <(compgen -f -X '!*.@(pas|pfc)' -- "$word"; compgen -d -- "$word")
        compopt -o filenames
        ;;
    esac
}
shopt -s extglob
complete -F _pfc pfc pfcwalk
