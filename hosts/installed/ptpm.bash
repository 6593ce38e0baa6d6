# Completion of ptpm, ptpm-manage and ptpm-clock for bash. The programs themselves say what there is: options by --help, and the
# names of the management ids and of findings by `ptpm ids` and `ptpm findings`.

# The options that the words given have in their help.
_ptpm_options() {
    "$@" --help 2>&1 < /dev/null | grep -oE -- '(^|[] ,|])\[?--?[a-zA-Z0-9][a-z0-9-]*' | grep -oE -- '--?[a-zA-Z0-9].*' | sort -u
}

# Whether in the help of the program $1 the option $2 has a word in capitals after it: then what is at the cursor is that.
_ptpm_takes() { [[ $2 = -* ]] && "$1" --help 2>&1 < /dev/null | grep -qE -- "(^|[][ ,|])$2(, --[a-z0-9-]+)? <?[A-Z]"; }

_ptpm_ids() { ptpm ids 2> /dev/null | cut -d ' ' -f 2; }

# Those that only other clocks answer.
_ptpm_other_ids() {
    ptpm-manage --help 2> /dev/null < /dev/null | sed -n '/^get and survey also/,/^$/p' | grep -oE '[A-Z][A-Z_]{3,}'
}

# Offers those of the words given that begin as the word at the cursor does, or as it does in capitals. They are compared as they
# are, and not expanded: an interface may have any name.
_ptpm_offer() {
    local word=${COMP_WORDS[COMP_CWORD]} one
    COMPREPLY=()
    for one; do [[ $one != "$word"* ]] || COMPREPLY+=("$one"); done
    [[ ${#COMPREPLY[@]} -gt 0 ]] || for one; do [[ $one != "${word^^}"* ]] || COMPREPLY+=("$one"); done
}

# The lines of its standard input as words of _ptpm_offer.
_ptpm_offer_lines() {
    local -a lines
    mapfile -t lines
    _ptpm_offer "${lines[@]}"
}

_ptpm_offer_interfaces() { _ptpm_offer_lines < <(cd /sys/class/net && printf '%s\n' *); }

_ptpm_offer_profiles() { _ptpm_offer default st2059-2 aes67 gptp; }

# Offers the names of the findings, also after others with a comma.
_ptpm_offer_findings() {
    local earlier=${COMP_WORDS[COMP_CWORD]}
    local -a names
    mapfile -t names < <(ptpm findings 2> /dev/null | cut -d ' ' -f 1)
    if [[ $earlier = *,* ]]; then earlier=${earlier%,*},; else earlier=; fi
    _ptpm_offer "${names[@]/#/$earlier}"
}

# Of the words before the cursor the last that is one of those given.
_ptpm_last() {
    local k
    for ((k = COMP_CWORD - 1; k > 0; k--)); do
        [[ " $1 " != *" ${COMP_WORDS[k]} "* ]] || { echo "${COMP_WORDS[k]}"; return; }
    done
}

_ptpm() {
    local before=${COMP_WORDS[COMP_CWORD - 1]} command
    local -a commands=(answer show ids make run check schedule draw site monitor findings plan)
    command=$(_ptpm_last "${commands[*]}")
    case $command,$before,${COMP_WORDS[COMP_CWORD]} in
    ,*) _ptpm_offer "${commands[@]}" --help --version ;;
    *,*,-*) _ptpm_offer_lines < <(_ptpm_options ptpm "$command") ;;
    make,make,*) _ptpm_offer get set command ;;
    site,--max-offset,*) _ptpm_offer none ;;
    site,--profile,*) _ptpm_offer_profiles ;;
    site,--ignore,*) _ptpm_offer_findings ;;
    make,get,* | make,set,* | make,command,*) _ptpm_offer_lines < <(_ptpm_ids) ;;
    esac
}

# Offers the name of the member that comes next after `set ID`, if the id has several. A refused command line names them, and asks
# nothing.
_ptpm_offer_member() {
    local -a names
    local k=$COMP_CWORD words
    while ((k > 0)) && [[ ${COMP_WORDS[k]} != set ]]; do ((k--)); done
    words=$((COMP_CWORD - k - 2))
    ((k > 0 && words >= 0 && words % 2 == 0)) || return
    mapfile -t names < <(ptpm-manage --target 0000000000000001 set "${COMP_WORDS[k + 1]}" '' '' 2>&1 < /dev/null |
        grep -oE '[a-zA-Z0-9]+ VALUE' | cut -d ' ' -f 1)
    _ptpm_offer "${names[@]:words / 2:1}"
}

# Offers the names of the applies whose journals are there.
_ptpm_offer_applies() {
    local folder=${XDG_STATE_HOME:+$XDG_STATE_HOME/ptpm}
    [[ -n $folder ]] || if ((EUID == 0)); then folder=/var/lib/ptpm; else folder=$HOME/.local/state/ptpm; fi
    _ptpm_offer_lines < <(cd "$folder/apply" 2> /dev/null && printf '%s\n' *.journal | sed -n 's/\.journal$//p' | grep -v '^\*$')
}

_ptpm_manage() {
    local before=${COMP_WORDS[COMP_CWORD - 1]}
    local -a actions=(get set command survey collect status plan apply resume rollback applies)
    case $before,${COMP_WORDS[COMP_CWORD]} in
    *,-*) _ptpm_offer_lines < <(_ptpm_options ptpm-manage) ;;
    get,* | survey,*) _ptpm_offer_lines < <(_ptpm_ids && _ptpm_other_ids) ;;
    set,* | command,*) _ptpm_offer_lines < <(_ptpm_ids) ;;
    -i,* | --interface,*) _ptpm_offer_interfaces ;;
    -p,* | --port,*) _ptpm_offer all ;;
    rollback,* | applies,*) _ptpm_offer_applies ;;
    plan,* | apply,*) ;;
    --max-offset,*) _ptpm_offer none ;;
    --profile,*) _ptpm_offer_profiles ;;
    --ignore,*) _ptpm_offer_findings ;;
    --sdo,*) _ptpm_offer 0x100 all ;;
    *)
        _ptpm_takes ptpm-manage "$before" || _ptpm_offer_member || [[ -n $(_ptpm_last "${actions[*]}") ]] ||
            _ptpm_offer "${actions[@]}"
        ;;
    esac
}

# What is no option is an interface, except the first, the clock's identity, and the file that is the second word of --give.
_ptpm_clock() {
    case ${COMP_WORDS[COMP_CWORD]} in
    -*) _ptpm_offer_lines < <(_ptpm_options ptpm-clock) ;;
    *)
        [[ $COMP_CWORD -gt 2 && ${COMP_WORDS[COMP_CWORD - 2]} = --give ]] ||
            _ptpm_takes ptpm-clock "${COMP_WORDS[COMP_CWORD - 1]}" || _ptpm_offer_interfaces
        ;;
    esac
}

# Where none is offered the words are paths.
complete -o default -F _ptpm ptpm
complete -o default -F _ptpm_manage ptpm-manage
complete -o default -F _ptpm_clock ptpm-clock
