# Bash completion for captions.

# Answers with the files of a kind that begin with a word, and with folders. A name stands for its
# .rec, .table or .entry file.
_captions_files() {
    local word=$2 endings='' name ending
    case $1 in
    list) endings='.rec .vtt' ;;
    track) endings=.table ;;
    entry) endings=.entry ;;
    vtt) endings=.vtt ;;
    file) mapfile -t COMPREPLY < <(compgen -f -- "$word") ;;
    esac
    for ending in $endings; do
        while IFS= read -r name; do
            [[ $ending == .vtt ]] || name=${name%"$ending"}
            COMPREPLY+=("$name")
        done < <(compgen -f -X "!*$ending" -- "$word")
    done
    [[ -z $endings ]] || mapfile -t -O "${#COMPREPLY[@]}" COMPREPLY < <(compgen -d -- "$word")
    compopt -o filenames 2>/dev/null # so that bash quotes them
}

_captions() {
    local word=${COMP_WORDS[COMP_CWORD]} before=${COMP_WORDS[COMP_CWORD - 1]} at options='' words=''
    local -a operands=() places=()
    COMPREPLY=()
    # Bash takes --name=value for three words.
    [[ $word == = ]] && word=''
    [[ $before == = ]] && before=${COMP_WORDS[COMP_CWORD - 2]}
    word=${word#[\"\']} word=${word//\\/}
    for ((at = 2; at < COMP_CWORD; at++)); do
        case ${COMP_WORDS[at]} in
        --) operands+=("${COMP_WORDS[@]:at + 1:COMP_CWORD - at - 1}") before=-- && break ;;
        --scale | --t | --label | --header | --track | --out) [[ ${COMP_WORDS[at + 1]-} == = ]] || ((at++)) ;;
        = | :) ((at++)) ;;
        -?*) ;;
        *) operands+=("${COMP_WORDS[at]}") ;;
        esac
    done
    case "${COMP_WORDS[1]} ${operands[0]-}" in
    pack\ *) options='--scale --t --label --header' places=(list track) ;;
    unpack\ *) options='--scale --header' places=(track list) ;;
    check\ *) options='--scale --t' places=(list track) ;;
    from-vtt\ *) places=(vtt list) ;;
    to-vtt\ *) options='--header' places=(list vtt) ;;
    from-3gpp\ *) options='--scale --header' places=(entry track list) ;;
    drop-zero-durations\ *) places=(track track) ;;
    profile\ *) places=(list) ;;
    settings\ *) options='--header' places=(list list) ;;
    judge\ ) options='--scale --t' words='sample entry list track tx3g vtt' ;;
    judge\ list) options='--scale --t' places=(kind list) ;;
    judge\ track | judge\ vtt) places=(kind "${operands[0]}") ;;
    show\ ) options='--scale --t --track --json --svg --out' words='list track entry sample tx3g' ;;
    show\ list) options='--scale --t --track --json --svg --out' places=(kind list) ;;
    show\ track) options='--scale --json --svg --out' places=(kind track) ;;
    show\ *) options='--json --out' places=(kind file file) ;;
    judge\ *) places=(kind file file) ;;
    esac
    ((COMP_CWORD == 1)) && words='pack unpack check judge profile settings show from-vtt to-vtt from-3gpp drop-zero-durations --version' && options=$words before=''
    case $before in
    --header | --out) _captions_files file "$word" ;;
    --track) _captions_files track "$word" ;;
    --t | --label) ;;
    --scale) mapfile -t COMPREPLY < <(compgen -W '1000 90000' -- "$word") ;;
    *)
        [[ $word == -* && $before != -- ]] && words="$options --help"
        mapfile -t COMPREPLY < <(compgen -W "$words" -- "$word")
        [[ -n $words ]] || _captions_files "${places[${#operands[@]}]-}" "$word"
        ;;
    esac
}

complete -F _captions captions
