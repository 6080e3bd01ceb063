# Completions of bw's Python programs for bash: options, their values and file names. Written by
# scripts/manpages.
_bw_python() {
    local word=${COMP_WORDS[COMP_CWORD]} before=${COMP_WORDS[COMP_CWORD-1]} words=''
    local program=${COMP_WORDS[0]##*/}
    if [[ $program == bw-shards ]] && (( COMP_CWORD > 1 )); then
        program+="-${COMP_WORDS[1]}"
    fi
    COMPREPLY=()
    case $program:$before in
        *:--format) words='csv table json markdown tsv vertical' ;;
        bw-import:--table|bw-import:--shards|bw-import:--separator|bw-import:--encoding|bw-import:--quote|bw-import:--escape|bw-import:--skip|bw-import:--comment|bw-import:--columns|bw-import:--null|bw-import:--text|bw-import:--number|bw-import:--date|bw-import:--digits|bw-import:--thousands) return ;;
        bw-shards-load:--rows|bw-shards-load:--shards|bw-shards-load:--table|bw-shards-load:--separator|bw-shards-load:--encoding|bw-shards-load:--quote|bw-shards-load:--escape|bw-shards-load:--skip|bw-shards-load:--comment|bw-shards-load:--columns|bw-shards-load:--null|bw-shards-load:--text|bw-shards-load:--number|bw-shards-load:--date|bw-shards-load:--digits|bw-shards-load:--thousands) return ;;
        bw-shards-ask:--scheduler) return ;;
        bw-to-numbers:--separator|bw-to-numbers:--encoding|bw-to-numbers:--quote|bw-to-numbers:--escape|bw-to-numbers:--skip|bw-to-numbers:--comment|bw-to-numbers:--columns|bw-to-numbers:--null|bw-to-numbers:--text|bw-to-numbers:--number|bw-to-numbers:--date|bw-to-numbers:--digits|bw-to-numbers:--thousands) return ;;
        bw-import:*) words='-h --help --version --table --shards --columnar --by-rows --dry-run --verify --separator --encoding --quote --escape --skip --comment --lenient --columns --fill --widen --row-names --trailing-separators --heading --no-heading --null --text --number --date --digits --thousands --drop-blanks --keep-blanks --keep-spelling' ;;
        bw-ask:*) words='-h --help --version --format --plain --show --stats --all' ;;
        bw-shards-load:*) words='-h --help --version --rows --shards --table --columnar --by-rows --dry-run --separator --encoding --quote --escape --skip --comment --lenient --columns --fill --widen --row-names --trailing-separators --heading --no-heading --null --text --number --date --digits --thousands --drop-blanks --keep-blanks --keep-spelling' ;;
        bw-shards-ask:*) words='-h --help --version --scheduler --format --plain --show --stats --all' ;;
        bw-to-numbers:*) words='-h --help --version --separator --encoding --quote --escape --skip --comment --lenient --columns --fill --widen --row-names --trailing-separators --heading --no-heading --null --text --number --date --digits --thousands --drop-blanks --keep-blanks --keep-spelling' ;;
        bw-from-numbers:*) words='-h --help --version' ;;
        bw-shards:*) words='load ask --help --version' ;;
    esac
    if [[ $word == -* || $before == --format || $program == bw-shards ]]; then
        mapfile -t COMPREPLY < <(compgen -W "$words" -- "$word")
    else
        compopt -o filenames 2>/dev/null
        mapfile -t COMPREPLY < <(compgen -f -- "$word")
    fi
}
complete -F _bw_python bw-import bw-ask bw-shards bw-to-numbers bw-from-numbers
