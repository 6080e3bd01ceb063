# Completions of bw for bash: commands, options and file names.
_bw() {
    local word=${COMP_WORDS[COMP_CWORD]} before=${COMP_WORDS[COMP_CWORD-1]} command='' each words=''
    for each in "${COMP_WORDS[@]:1:COMP_CWORD-1}"; do
        if [[ $each != -* ]]; then
            command=$each
            break
        fi
    done
    COMPREPLY=()
    case $command:$before in
        load:--layout|encode:--layout) words='planes slices' ;;
        encode:--separator|encode:--quote|encode:--escape|encode:--comment|encode:--columns|encode:--rows) return ;;
        infer:--table) return ;;
        query:--program|session:--program) ;;
        :*) words='infer load encode recode query session direct dump info plan certify check --explain --help --version' ;;
        infer:*) words='--table --explain --help' ;;
        load:*) words='--columnar --layout --explain --help' ;;
        encode:*) words='--separator --quote --escape --comment --lenient --fill --columns --rows --columnar --layout --explain --help' ;;
        recode:*) words='--columnar --explain --help' ;;
        info:*) words='--verify --explain --help' ;;
        query:*) words='--program --stats --explain --help' ;;
        session:*) words='--program --stats --explain --help' ;;
        *) words='--explain --help' ;;
    esac
    if [[ -z $command || $word == -* || $before == --layout ]]; then
        mapfile -t COMPREPLY < <(compgen -W "$words" -- "$word")
    else
        compopt -o filenames 2>/dev/null
        mapfile -t COMPREPLY < <(compgen -f -- "$word")
    fi
}
complete -F _bw bw
