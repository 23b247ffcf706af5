# shellcheck shell=bash disable=SC2207
# Completion of mtrr, mtrr-import, mtrr-map, mtrr-explain and mtrr-judge for bash.

_mtrr() {
    local word=${COMP_WORDS[COMP_CWORD]} place=$COMP_CWORD
    COMPREPLY=()
    if [ "$place" -eq 1 ]; then
        COMPREPLY=($(compgen -W 'check show types page tidy gran replay proc make big private --help --version' -- "$word"))
        return
    fi
    case ${COMP_WORDS[1]} in
    page)
        [ "$place" -ne 3 ] || COMPREPLY=($(compgen -W '0 1 2 3 4 5 6 7' -- "$word"))
        ;;
    tidy) _mtrr_supply "$word" spare chunk ;;
    gran)
        if [ "$place" -eq 2 ]; then
            COMPREPLY=($(compgen -W '1000 10000 100000 1000000 4000000 10000000 40000000' -- "$word"))
        else
            _mtrr_supply "$word" spare chunk
        fi
        ;;
    proc | private)
        [ "$place" -ne 2 ] || COMPREPLY=($(compgen -W "$(printf '%s ' {1..16})" -- "$word"))
        ;;
    esac
}

# Those of the names that don't stand yet, each with a `=` behind it. bash takes a `=` as a word of its own.
_mtrr_supply() {
    local line=" ${COMP_WORDS[*]:0:COMP_CWORD} " word=$1 name names=
    shift
    for name in "$@"; do
        case $line in
        *" $name"[\ =]*) ;;
        *) names="$names $name=" ;;
        esac
    done
    COMPREPLY=($(compgen -W "$names" -- "$word"))
    compopt -o nospace
}

_mtrr_import() {
    local word=${COMP_WORDS[COMP_CWORD]}
    COMPREPLY=()
    if [ "$COMP_CWORD" -eq 1 ]; then
        COMPREPLY=($(compgen -W 'auto chipsec coreboot edk2 inteltool linux memory plain rdmsr windbg x86info xen -h --help --version' -- "$word"))
    elif [[ ${COMP_WORDS[1]} == memory ]]; then
        if [ "$COMP_CWORD" -eq 2 ]; then
            COMPREPLY=($(compgen -W 'auto coreboot e820 efi iomem -h --help --version' -- "$word"))
        else
            _mtrr_supply "$word" table
            _mtrr_files "$word"
        fi
    else
        _mtrr_supply "$word" maxphyaddr assume table 0fe 268 277 2ff
        _mtrr_files "$word"
    fi
}

# The files that a word may name.
_mtrr_files() {
    local files=($(compgen -f -- "$1"))
    COMPREPLY+=("${files[@]}")
    [ ${#files[@]} -eq 0 ] || compopt -o filenames
}

# A form, a case, or one of the words that stand alone.
_mtrr_judge() {
    local word=${COMP_WORDS[COMP_CWORD]}
    COMPREPLY=()
    [ "$COMP_CWORD" -ne 1 ] || COMPREPLY=($(compgen -W 'picture json -h --help --version' -- "$word"))
    _mtrr_files "$word"
}

# A title, `files`, a dump, or one of the words that stand alone.
_mtrr_map() {
    local word=${COMP_WORDS[COMP_CWORD]}
    _mtrr_supply "$word" title
    case " ${COMP_WORDS[*]:0:COMP_CWORD} " in
    *' files '*) return ;;
    esac
    COMPREPLY+=($(compgen -W files -- "$word"))
    _mtrr_files "$word"
    [ "$COMP_CWORD" -ne 1 ] || COMPREPLY+=($(compgen -W '-h --help --version' -- "$word"))
    [[ ${COMPREPLY[*]} == 'title=' ]] || compopt +o nospace
}

_mtrr_explain() {
    local word=${COMP_WORDS[COMP_CWORD]} command=1
    COMPREPLY=()
    [[ ${COMP_WORDS[1]} != --json ]] || command=2
    if [ "$COMP_CWORD" -le "$command" ]; then
        COMPREPLY=($(compgen -W 'faults page diff fit ram mend --json --help --version' -- "$word"))
    elif [[ $word == -* ]]; then
        case ${COMP_WORDS[command]} in
        diff) COMPREPLY=($(compgen -W '--cpus --all-cpus --types --json --help' -- "$word")) ;;
        fit) COMPREPLY=($(compgen -W '--spare --json --help' -- "$word")) ;;
        mend) COMPREPLY=($(compgen -W '--set --ram --take --like --spare --chunk --as --json --help' -- "$word")) ;;
        *) COMPREPLY=($(compgen -W '--json --help' -- "$word")) ;;
        esac
    else
        COMPREPLY=($(compgen -f -- "$word"))
        compopt -o filenames
    fi
}

complete -F _mtrr mtrr
complete -F _mtrr_import mtrr-import
complete -F _mtrr_map mtrr-map
complete -F _mtrr_judge mtrr-judge
complete -F _mtrr_explain mtrr-explain
