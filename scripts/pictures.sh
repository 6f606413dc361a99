# The word `pictures` of deosk-show: pictures of a ledger one after another. Each is the proved program's own, of a range of
# ticks that is chosen here.

# is_number WORD: a number as the program takes it
is_number() {
    case $1 in
    '' | *[!0-9]* | 0?* | ?????????*) return 1 ;;
    esac
}

# ask_right WORDS: ends with the usage line where these words don't ask for pictures
ask_right() {
    why=
    case $# in
    4 | 6) ;;
    *) why='LEDGER, PREFIX and TICKS are wanted, and perhaps FROM and TO' ;;
    esac
    for word in "${5-0}" "${6-0}" "${4-1}"; do
        is_number "$word" || why=${why:-"$word is no number of ticks"}
    done
    [ "${4-1}" != 0 ] || why=${why:-'a page of 0 ticks'}
    { [ -n "${2-x}" ] && [ -n "${3-x}" ]; } || why=${why:-'a word is empty'}
    [ -n "$why" ] || return 0
    echo 'usage: deosk-show pictures LEDGER PREFIX TICKS [FROM TO]'
    say "pictures: $why"
    exit 1
}

# draw FILE FROM TO: the picture of this range becomes the file. Where it has too many lines, `until` is the greatest tick
# that one has
draw() {
    until=$3
    beside "$1"
    run svg "$ledger" "$2" "$until" >"$written"
    fits=$(sed -n 's/^range: more than [0-9]* groups, TO up to \([0-9]*\) fits$/\1/p' "$written")
    if [ $status = 4 ] && [ -n "$fits" ]; then
        until=$fits
        run svg "$ledger" "$2" "$until" >"$written"
    fi
    if [ $status != 0 ]; then
        cat "$written" >&2
        rm -f "$written"
        explain svg "$ledger"
        say "status $status, $1 is not written"
        exit $status
    fi
    mv -f "$written" "$target" || cannot_write "$1"
    written=
}

# pictures WORDS: a picture for each so many ticks of the range, or of the whole ledger, with a line that tells its file and
# its range
pictures() {
    ask_right "$@"
    ledger=$2 prefix=$3 ticks=$4 from=${5-0} number=1
    make_fresh
    # the last line of a ledger tells its ticks; what is none is refused by the program
    to=${6-$(sed -n '$s/^end \([0-9]*\)$/\1/p' "$ledger" 2>/dev/null)}
    is_number "$to" || straight svg "$ledger"
    while
        next=$((from + ticks))
        [ $next -lt "$to" ] || next=$to
        draw "$prefix$number.svg" "$from" "$next"
        echo "$prefix$number.svg $from $until"
        from=$until number=$((number + 1))
        [ "$from" -lt "$to" ]
    do :; done
    exit 0
}

for word; do
    case $word in -h | --help | -o | --version) answer "$@" ;; esac
done
pictures "$@"
