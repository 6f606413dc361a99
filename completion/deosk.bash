# Completion of deosk, deosk-show and try for bash: `source completion/deosk.bash`, or a link to this file among bash's completions.
# It gives the commands, their flags, and for each word the files of its kind.

# the files with these endings, and the folders
_deosk_files() {
    local IFS=$'\n' end found
    compopt -o filenames 2>/dev/null
    found=$(for end; do compgen -f -X "!*$end" -- "$word"; done; compgen -d -- "$word")
    COMPREPLY=($found)
}

_deosk_processes() {
    # the names of the configuration that stands on the line before
    COMPREPLY=($(compgen -W "$(sed -n '/^\[\[process]]/,/^\[\[mutex]]/s/^name *= *"\(.*\)".*/\1/p' "$1" 2>/dev/null)" -- "$word"))
}

# of deosk and deosk-show with their own words before, and of try, whose words are deosk's, or behind show deosk-show's
_deosk() {
    local word=${COMP_WORDS[COMP_CWORD]} program=${COMP_WORDS[0]##*/} first=1 own='help --help --version -o'
    local commands=$_deosk_commands
    COMPREPLY=()
    if [ "$program" = try ]; then
        program=deosk own='show --help'
        if [ "$COMP_CWORD" -gt 1 ] && [ "${COMP_WORDS[1]}" = show ]; then
            program=deosk-show first=2 own=
        fi
    elif [ "$COMP_CWORD" -gt 1 ] && [ "${COMP_WORDS[1]}" = -o ]; then
        if [ "$COMP_CWORD" = 2 ]; then
            _deosk_files ''
            return
        fi
        first=3 own=
    fi
    [ "$program" = deosk ] || commands=$_deosk_show_commands
    case ${COMP_WORDS[first]}:$((COMP_CWORD - first)):$word in
    *:0:*) COMPREPLY=($(compgen -W "$commands $own" -- "$word")) ;;
    help:1:*)
        # a word of the script itself, which neither try nor a line behind -o FILE has
        case $own in 'help '*) COMPREPLY=($(compgen -W "$commands" -- "$word")) ;; esac
        ;;
    *) "_${program/-/_}_arguments" ;;
    esac
}

_deosk_arguments() {
    case ${COMP_WORDS[first]}:$((COMP_CWORD - first)):$word in
    run:*:-* | ledger:*:-*) COMPREPLY=($(compgen -W --report -- "$word")) ;;
    run:3:*) COMPREPLY=(--report) ;;
    run:1:* | certify:1:* | inspect:1:* | plan:1:* | migrate:1:* | audit:1:*) _deosk_files .toml ;;
    plan:2:*) _deosk_processes "${COMP_WORDS[first + 1]}" ;;
    asm:1:*) _deosk_files .s ;;
    dis:1:*) _deosk_files .bin ;;
    ledger:1:* | audit:2:*) _deosk_files .txt ;;
    esac
}

_deosk_show_arguments() {
    if [ "${COMP_WORDS[COMP_CWORD - 1]}" = --needs ]; then
        _deosk_files .toml
        return
    fi
    case ${COMP_WORDS[first]}:$((COMP_CWORD - first)):$word in
    windows:*:-* | windows:2:*) COMPREPLY=($(compgen -W '--strict --sparing --all --tenths --csv' -- "$word")) ;;
    impact:*:-* | slack:*:-*) COMPREPLY=($(compgen -W --csv -- "$word")) ;;
    check:*:-*) COMPREPLY=($(compgen -W '--csv --junit' -- "$word")) ;;
    certify:[2-9]:* | margins:[2-9]:* | when:[2-9]:* | warnings:[2-9]:* | certify:1:-* | margins:1:-* | when:1:-* | warnings:1:-*)
        COMPREPLY=($(compgen -W --csv -- "$word")) ;;
    slack:[2-9]:* | slack:[1-3][0-9]:*) _deosk_processes "${COMP_WORDS[first + 1]}" ;;
    impact:[3-9]:* | impact:[1-3][0-9]:*) _deosk_processes "${COMP_WORDS[first + 2]}" ;;
    chain:*:-*) COMPREPLY=($(compgen -W --ledger -- "$word")) ;;
    page:*:-*) COMPREPLY=($(compgen -W '--needs --repeats' -- "$word")) ;;
    svg:*:-*) COMPREPLY=($(compgen -W --config -- "$word")) ;;
    svg:[2-9]:*) [ "${COMP_WORDS[COMP_CWORD - 1]}" != --config ] || _deosk_files .toml ;;
    chain:[2-9]:* | chain:[1-3][0-9]:*) _deosk_processes "${COMP_WORDS[first + 1]}" ;;
    svg:1:* | pictures:1:* | trace:1:* | vcd:1:* | csv:1:* | windows:1:* | holds:1:* | page:2:* | check:3:*) _deosk_files .txt ;;
    budgets:*:-*) COMPREPLY=($(compgen -W '--reserve --csv --toml' -- "$word")) ;;
    budgets:1:*) _deosk_files .csv ;;
    budgets:2:*) _deosk_files .toml ;;
    replay:1:*) _deosk_files .profile .csv ;;
    replay:3:*) _deosk_files .toml ;;
    *:1:* | holds:2:* | impact:2:* | check:2:*) _deosk_files .toml ;;
    esac
}

_deosk_commands='certify run inspect plan harmonise migrate asm dis ledger audit gen'
_deosk_show_commands='svg pictures trace vcd csv windows holds faults certify margins when slack warnings page chain impact repeats check replay budgets'
complete -F _deosk deosk deosk-show try
