# What the scripts at the top have in common: each builds the program of a crate where the one that is there isn't
# of the present sources, and runs it as itself.
#
# A script sets these and then sources this file:
#   top     the folder of the repository
#   me      its own name, which its lines on the error stream begin with
#   crate   the crate of its program
#
# In the folder out/ at the top, which no other command writes, stand for each crate
#   CRATE         the program. It stays until the next one is there
#   CRATE.o       the code that it was linked of, for a package
#   CRATE.stamp   what it was made of: the sum of its sources, the toolchain's line, its own sum, and the commit
#   CRATE.seen    names, numbers, sizes and times of all files when they were last found to have these sums. Where
#                 none of it differs no sum is taken: a file that was written since has another time of change,
#                 which nobody can set back
#   CRATE.log     what rt says in a build that goes on, and what it said in the last one if that failed
#   CRATE.failed  the sources and the toolchain of that build
#   lock          held during a build, with a line that tells whose it is
#   room          the folder of temporary files of the build that goes on

out=$top/out
program=$out/$crate
log=$program.log

say() {
    echo "$me: $*" >&2
}

# stop TEXT: there is no program to run
stop() {
    say "$1"
    exit 127
}

# libraries: the crate and all crates of the repository below it
libraries() {
    awk -v top="$crate" '
        { sub(/#.*/, "") }
        NF { cut = index($0, ":"); split(substr($0, 1, cut - 1), head); uses[head[1]] = substr($0, cut + 1) }
        function take(name,    at, count, low) {
            if (!(name in uses) || name in taken) return
            taken[name] = 1
            print name
            count = split(uses[name], low)
            for (at = 1; at <= count; at++) take(low[at])
        }
        END { take(top) }' "$top/crates.txt"
}

# lines_of FOLDER CRATES: their lines of crates.txt in a copy of the repository
lines_of() {
    for one in $2; do
        grep -E "^[[:space:]]*$one([[:space:]:]|\$)" "$1/crates.txt"
    done
}

# source_folders FOLDER CRATES: the folders with what these crates are proved of, in a copy of the repository
source_folders() {
    for one in $2; do
        for part in src specs proofs; do
            [ -d "$1/crates/$one/$part" ] && echo "crates/$one/$part"
        done
    done
}

# sum_of FOLDER CRATES: the sum of the sources of these crates in a copy of the repository
sum_of() {
    (
        cd "$1" || exit
        {
            lines_of . "$2"
            cat HANDLES
            find $(source_folders . "$2") -type f -exec sha256sum {} + | LC_ALL=C sort
        } 2>/dev/null | sha256sum | cut -d ' ' -f 1
    )
}

# listing: names, numbers, sizes and times of all that the program's freshness hangs on
listing() {
    rt=$(command -v rt 2>/dev/null) && rt=$(readlink -f "$rt")
    (
        cd "$top" || exit
        find crates.txt HANDLES $(source_folders . "$crates") "$program" "$program.stamp" \
            ${rt:+"$rt" "${rt%/bin/rt}/KIT-ID"} ! -type d -printf '%p %i %s %T@ %C@\n' 2>/dev/null
    )
}

# toolchain: the line of the toolchain, and nothing where it isn't there
toolchain() {
    rt version 2>/dev/null | head -n 1
}

# told WORD: what the stamp of the program has under this word
told() {
    sed -n "s/^$1 //p" "$program.stamp" 2>/dev/null
}

# is_of_sums: the program, the sources and the toolchain, if it is there, have the sums of the stamp
is_of_sums() {
    is_whole || return
    [ "$(told sources)" = "$(sum_of "$top" "$crates")" ] || return
    ! command -v rt >/dev/null 2>&1 || [ "$(told toolchain)" = "$(toolchain)" ]
}

# is_package: this is an installed package, which has the programs and no sources
is_package() {
    [ -f "$top/PROVED" ]
}

# is_whole: the program has the sum of its stamp
is_whole() {
    [ "$(told program)" = "$(sha256sum <"$program" | cut -d ' ' -f 1)" ]
}

# is_fresh: the program is there, and was made of the present sources by the present toolchain
is_fresh() {
    [ -x "$program" ] && [ -f "$program.stamp" ] || return
    if is_package; then
        is_whole
        return
    fi
    [ -s "$program.seen" ] && listing | cmp -s - "$program.seen" && return
    # the listing comes before the sums, so that a file which is written from here on differs from it
    found=$(listing)
    is_of_sums || return
    # where nothing can be written there, the next call takes the sums again
    { echo "$found" >"$program.seen.$$" && mv -f "$program.seen.$$" "$program.seen"; } 2>/dev/null
    return 0
}

# install FILE SOURCES TOOLCHAIN COMMIT: a program that was proved takes the old one's place
install() {
    cp "$1.o" "$program.o" 2>/dev/null || rm -f "$program.o"
    cp "$1" "$program.new" && chmod 755 "$program.new" &&
        printf 'sources %s\ntoolchain %s\nprogram %s\ncommit %s\n' "$2" "$3" \
            "$(sha256sum <"$program.new" | cut -d ' ' -f 1)" "$4" >"$program.stamp.new" &&
        mv -f "$program.new" "$program" && mv -f "$program.stamp.new" "$program.stamp"
}

# adopt BEFORE FILE: a program that `rt ci` proved and built at the top takes the old one's place, unless one of its
# files was touched since the listing that stands in the file BEFORE
adopt() {
    mkdir -p "$out" && listing | cmp -s - "$1" && install "$2" "$(sum_of "$top" "$crates")" "$(toolchain)" "$(commit)"
}

# commit: the commit of the sources
commit() {
    at=$(git -C "$top" rev-parse --short=12 HEAD 2>/dev/null) || at=unknown
    [ -z "$(git -C "$top" status --porcelain -- crates.txt HANDLES crates 2>/dev/null)" ] || at="$at with changes"
    echo "$at"
}

# took: the time since the build began
took() {
    seconds=$(($(date +%s) - begun))
    [ $seconds -lt 60 ] || printf '%s min ' $((seconds / 60))
    printf '%s s\n' $((seconds % 60))
}

# copy_parts CRATE PART...: those that it has, into the copy that is built
copy_parts() {
    from=$top/crates/$1 to=$room/repository/crates/$1
    mkdir -p "$to" || return
    shift
    for part; do
        [ ! -e "$from/$part" ] || cp -R "$from/$part" "$to/" || return
    done
}

# cut_copy: a copy of the repository without what the program doesn't need: other crates, wrong bodies and pages
cut_copy() {
    chmod 711 "$room" && mkdir -m 711 "$room/temporary" && mkdir -p "$room/repository/.git" || return
    [ ! -e "$top/HANDLES" ] || cp "$top/HANDLES" "$room/repository/" || return
    lines_of "$top" "$crates" >"$room/repository/crates.txt"
    for library in $crates; do
        copy_parts "$library" src specs proofs || return
    done
    # what it is run on once it is built
    copy_parts "$crate" args data status stdin stdout
}

# tell: a line for each library that was proved since the last call, and for each that is waited for
tell() {
    lines=$(wc -l <"$log")
    [ "$lines" -gt "$heard" ] && new=$(sed -n "$((heard + 1)),${lines}{/^rt: /p;}" "$log") || new=
    while IFS= read -r line; do
        line=${line#rt: }
        case $line in
        *' NOT PROVED: its library '* | *': its tests are proved') continue ;;
        *' NOT PROVED'*) ;;
        *' proved') proved=$((proved + 1)) line="$line, $proved of $count, $(took)" ;;
        *' is kept: '*)
            proved=$((proved + 1))
            line="${line%% is kept: *} was proved by an earlier run, $proved of $count, $(took)"
            ;;
        *waiting*) ;;
        *) continue ;;
        esac
        printf '%s' "$clear" >&2
        say "$line"
    done <<LINES
$new
LINES
    heard=$lines
    [ -z "$clear" ] || printf '%s%s: %s of %s proved, %s' "$clear" "$me" "$proved" "$count" "$(took)" >&2
}

# end_build: nothing of the build goes on, and of its files only the program or the log stays
end_build() {
    if [ -n "$building" ]; then
        kill "$building"
        wait "$building"
    fi 2>/dev/null
    # what rt had started may write for a moment longer
    for again in 1 2 3 4 5; do
        rm -rf "$room" 2>/dev/null && break
        sleep 1
    done
    rm -f "$out/room" "$program.new" "$program.stamp.new"
}

# give_up SIGNAL: ends the build and then this script, as the signal would have
give_up() {
    trap '' INT TERM HUP
    end_build
    rm -f "$log"
    printf '%s' "$clear" >&2
    say 'the build is given up; what was proved is kept by the toolchain'
    trap - "$1"
    kill -s "$1" $$
}

# show_end: what rt said last of the first crate that failed, and the end of the log
show_end() {
    awk '/^== / { count = 0 }
        { part[++count] = $0 }
        / NOT PROVED/ && !told { told = 1; for (at = count > 20 ? count - 19 : 1; at <= count; at++) print part[at] }
        ' "$log" | sed 's/^/  /' >&2
    tail -n 3 "$log" | sed 's/^/  /' >&2
}

no_program() {
    stop "the program couldn't be proved and built; all that rt said stands in $log"
}

fail() {
    sed "s|$room/repository|$top|g" "$log" >"$log.new" && mv -f "$log.new" "$log"
    echo "$sources $toolchain" >"$program.failed"
    end_build
    show_end
    no_program
}

# take_turn: one build at a time in this copy of the repository. Returns whether the program is still to be built
take_turn() {
    mkdir -p "$out" && { true >>"$out/lock"; } 2>/dev/null || stop "the program isn't built, and $out can't be written"
    exec 9>>"$out/lock"
    if command -v flock >/dev/null 2>&1 && ! flock -n 9; then
        say "waiting for the build that goes on ($(cat "$out/lock"); what it does stands in $out/*.log)"
        flock 9
        ! is_fresh || return
        [ "$(cat "$program.failed" 2>/dev/null)" != "$(sum_of "$top" "$crates") $(toolchain)" ] || no_program
    fi
    echo "$me, process $$, since $(date +%H:%M:%S)" >"$out/lock"
    # files of a build that was killed
    old=$(cat "$out/room" 2>/dev/null)
    case $old in */deosk-build.??????) rm -rf "$old" ;; esac
    rm -f "$log" "$program.failed"
}

build() {
    command -v rt >/dev/null 2>&1 ||
        stop "no program of these sources is built, and the command rt of the toolchain isn't on the path"
    take_turn
    ! is_fresh || return 0
    begun=$(date +%s) building='' proved=0 heard=0 clear=''
    count=$(echo "$crates" | wc -l)
    [ ! -t 2 ] || clear=$(printf '\r\033[K')
    room=
    for signal in INT TERM HUP; do
        trap "give_up $signal" $signal
    done
    room=$(mktemp -d "${TMPDIR:-/tmp}/deosk-build.XXXXXX") || stop "no folder of temporary files can be made"
    echo "$room" >"$out/room"
    : >"$log"
    cut_copy 2>>"$log" || fail
    # the sums are those of the copy, which nobody edits
    sources=$(sum_of "$room/repository" "$crates") toolchain=$(toolchain) of=$(commit)
    say "proving and building $crate with its libraries, $count crates, which takes minutes from nothing; ./try runs before any proof"
    # rt proves crates that don't hang on one another side by side, and what it starts ends when it ends
    (cd "$room/repository" && TMPDIR=$room/temporary && export TMPDIR && exec $term_too rt ci) \
        >"$log" 2>&1 </dev/null 9>&- &
    building=$!
    while kill -0 "$building" 2>/dev/null; do
        tell
        # what was proved before is told soon
        [ $(($(date +%s) - begun)) -ge 2 ] && pause=1 || pause=0.1
        sleep $pause &
        wait $!
    done
    wait "$building"
    status=$?
    building=
    tell
    printf '%s' "$clear" >&2
    [ $status = 0 ] && install "$room/repository/crates/$crate/out/$crate" "$sources" "$toolchain" "$of" || fail
    end_build
    rm -f "$log"
    trap - INT TERM HUP
    say "built, $(took)"
}

# make_fresh: the program is that of the present sources, or that of the package
make_fresh() {
    if is_package; then
        is_fresh || stop "$program isn't the program of this package"
        return
    fi
    for again in '' 'files changed during the build, so it is built anew' 'files changed once more' stop; do
        ! is_fresh || break
        [ "$again" != stop ] || stop "files change with each build"
        [ -z "$again" ] || say "$again"
        build
        exec 9>&-
    done
}

# free: the number of a stream that the caller hasn't given
free() {
    for number in 9 8 7 6 5 4 3; do
        [ -e /proc/$$/fd/$number ] || break
    done
    echo $number
}

# far WORDS: how far the program has come, by what it has written. A ledger that goes to a file tells its tick
far() {
    printf '%s: %s, ' "$me" "$1"
    if [ "$1" = run ] && [ -f "/proc/$child/fd/1" ]; then
        tick=$(tail -c 400 "/proc/$child/fd/1" | tail -n 2 | sed -n '1s/^\([0-9]*\) .*/\1/p')
        [ -z "$tick" ] || printf 'tick %s of %s, ' "$tick" "${3-}"
    fi
    count=$(sed -n 's/^wchar: //p' "/proc/$child/io" 2>/dev/null)
    if [ "${count:-0}" -ge 1000000 ]; then
        printf '%s MB written, ' $((count / 1000000))
    fi
    took
}

# watch WORDS: once a second has gone by, a line on the terminal says each second how far the program has come, until
# this is ended
watch() {
    begun=$(date +%s) shown=
    trap 'kill $!; [ -z "$shown" ] || printf "\r\033[K"; exit' TERM
    while
        sleep 1 &
        wait $!
        kill -0 "$child"
    do
        shown=$(far "$@")
        printf '\r\033[K%s' "$shown"
    done
}

# run WORDS: runs the program and leaves its status in `status`. A signal that ends this script ends the program first
run() {
    child=
    for signal in INT TERM HUP; do
        trap "pass_on $signal" $signal
    done
    # a command in the background has no standard input but what it is given
    if [ -e /proc/self/fd/0 ]; then
        input=$(free)
        eval "exec $input<&0"
        eval "\$kill_too \"\$program\" \"\$@\" <&$input $input<&- &"
    else
        $kill_too "$program" "$@" <&- &
    fi
    child=$! watcher=
    # what goes to a terminal shows itself how far it is
    if [ -t 2 ] && [ ! -t 1 ]; then
        watch "$@" >&2 2>/dev/null </dev/null &
        watcher=$!
    fi
    wait "$child"
    status=$?
    end_watch
    trap - INT TERM HUP
}

# end_watch: the line on the terminal goes
end_watch() {
    [ -z "$watcher" ] || { kill "$watcher" && wait "$watcher"; } 2>/dev/null
    watcher=
}

# run_on_terminal WORDS: the same, where all output comes at the end: it is kept until the line on the terminal is gone
run_on_terminal() {
    case ${1-} in run | trace | vcd | csv | ledger | dis) held= ;; *) held=$(mktemp 2>/dev/null) ;; esac
    if [ -z "$held" ]; then
        run "$@"
        return
    fi
    written=$held
    run "$@" >"$held"
    cat "$held"
    rm -f "$held"
    written=
}

# pass_on SIGNAL: ends the program and then this script
pass_on() {
    trap '' INT TERM HUP
    end_watch
    if [ -n "$child" ]; then
        kill -KILL "$child"
        wait "$child"
    fi 2>/dev/null
    [ -z "$written" ] || rm -f "$written"
    trap - "$1"
    kill -s "$1" $$
}

# goes_to_file: the output goes to a file or a pipe, and the error stream elsewhere
goes_to_file() {
    { [ -f /proc/self/fd/1 ] || [ -p /proc/self/fd/1 ]; } && ! [ /proc/self/fd/1 -ef /proc/self/fd/2 ]
}

# names_file COMMAND PLACE BEFORE: whether a word of the command is the name of a file, by its place among the words
# that are no flags, from 1, and by the word before it
names_file() {
    case $3 in
    --ledger | --config | --needs) return 0 ;;
    --reserve | --repeats) return 1 ;;
    esac
    case $1/$2 in
    gen/* | harmonise/* | help/*) return 1 ;;
    */1 | audit/2 | page/2 | impact/2 | check/[23] | holds/2 | replay/3 | budgets/2) ;;
    *) return 1 ;;
    esac
}

# files_of WORDS: the files that they name, and with status 5 only those that can't be read, if there are any
files_of() {
    command=${1-} place=0 before='' named='' missing=''
    [ $# = 0 ] || shift
    for word; do
        case $word in
        -*) ;;
        *)
            case $before in --ledger | --config | --needs | --reserve | --repeats) ;; *) place=$((place + 1)) ;; esac
            if names_file "$command" $place "$before"; then
                named="$named${named:+, }$word"
                { [ -r "$word" ] && [ ! -d "$word" ]; } || missing="$missing${missing:+, }$word"
            fi
            ;;
        esac
        before=$word
    done
    if [ $status = 5 ] && [ -n "$missing" ]; then
        printf ': %s' "$missing"
        return
    fi
    [ -z "$named" ] || printf ': %s' "$named"
    case $command in
    run | inspect | repeats | check) printf ', or a program that it names' ;;
    impact) printf ', or a program that they name' ;;
    esac
}

# wrong WORDS: why they are no call, by the page of this script: the first thing that is found
wrong() {
    for word; do
        case $word in
        *[[:cntrl:]]*) echo 'a word with a control character' ;;
        *) printf '%s\n' "$word" ;;
        esac
    done | awk -v page="$top/scripts/$me.txt" '
        # what may stand behind the command word: names of arguments, flags in brackets
        function form(command,   line, words, count, at, inside) {
            while ((getline line < page) > 0) {
                if (line ~ /^commands:/) inside = 1
                else if (line ~ /^statuses:/) inside = 0
                else if (inside && line ~ /^  [^ ]/) {
                    count = split(line, words, " ")
                    if (words[1] != command) continue
                    for (at = 2; at <= count; at++) {
                        if (words[at] ~ /^\[-/) flags[substr(words[at], 2, length(words[at]) - 2)]
                        else needed[++wanted] = words[at]
                    }
                    many = needed[wanted] ~ /[.][.][.]$/
                    return 1
                }
            }
            return 0
        }
        function found(text) { if (why == "") why = text }
        NR == 1 {
            if ($0 == "") found("a word is empty")
            else if (!form($0)) found($0 " is no command")
            else start = $0 ": "
            next
        }
        $0 == "" { found("a word is empty"); next }
        /^-/ {
            if (!($0 in flags)) found($0 " is no flag of it")
            else if (seen[$0]++) found($0 " stands more than once")
            next
        }
        { given[++count] = $0 }
        END {
            if (NR == 0) found("a command is wanted")
            if (count < wanted) found(needed[count + 1] " is missing")
            if (count > wanted && !many) found(given[wanted + 1] " is one word too many")
            for (at = 1; at <= count; at++) {
                if (needed[at] == "TICKS" && (given[at] !~ /^(0|[1-9][0-9]*)$/ || given[at] + 0 > 10000000))
                    found(given[at] " is no number of ticks from 0 to 10000000")
                if (needed[at] ~ /^(TICK|NUMBER|LO|HI)$/ && given[at] !~ /^(0|[1-9][0-9]*)$/)
                    found(given[at] " is no number")
            }
            found("these words are no call of it")
            print start why
        }'
}

# explain WORDS: what the error stream has of the status. The program writes nothing there, and 5 to 7 have no text
explain() {
    # the usage line of deosk doesn't say which word is wrong, that of deosk-show does
    [ "$status/$me" != 1/deosk ] || say "$(wrong "$@")"
    case $status in
    [1-4]) ! goes_to_file || say "status $status, and its text is in the output" ;;
    5) say "status 5, a file couldn't be read$(files_of "$@")" ;;
    # that nobody reads a pipe any further is no news
    6) [ -p /proc/self/fd/1 ] || say "status 6, the output couldn't be written; what was written is its beginning" ;;
    7) say "status 7, memory ran out$(files_of "$@")" ;;
    esac
}

# straight WORDS: runs the program on this script's own output, and ends with its status
straight() {
    make_fresh
    if [ -t 1 ] && [ -t 2 ]; then run_on_terminal "$@"; else run "$@"; fi
    explain "$@"
    exit $status
}

# cannot_write FILE: the status of an output that can't be written, before the program is run
cannot_write() {
    say "status 6, $1 can't be written"
    exit 6
}

# beside FILE: makes the file that is written, and takes the place of that one once it is whole
beside() {
    target=$(readlink -f -- "$1") && { [ ! -e "$target" ] || [ -f "$target" ]; } || cannot_write "$1"
    written=$(dirname "$target")/.$me-$$
    { true >"$written"; } 2>/dev/null || cannot_write "$1"
    [ ! -e "$target" ] || chmod --reference="$target" "$written" 2>/dev/null
}

# has_page: the output is a whole page of a layout that fails
has_page() {
    case $status in
    [234]) [ "$(head -c 15 "$written")" = '<!DOCTYPE html>' ] ;;
    *) false ;;
    esac
}

# to_file -o FILE WORDS: the output of the words becomes the file, whole where the status is 0 or it is a page, and else
# not at all
to_file() {
    # words of which these are none get the program's usage line
    [ $# -ge 3 ] || straight
    file=$2
    shift 2
    for word; do
        case $word in -o | -h | --help | --version) straight ;; esac
    done
    make_fresh
    beside "$file"
    run "$@" >"$written"
    if [ $status = 0 ] || has_page; then
        mv -f "$written" "$target" || cannot_write "$file"
        [ $status = 0 ] || say "status $status, $file is the page that tells why"
        exit $status
    fi
    case $status in
    1) cat "$written" >&2 && { [ $me != deosk ] || say "$(wrong "$@")"; } ;;
    [2-4]) cat "$written" >&2 ;;
    5 | 7) explain "$@" ;;
    esac
    rm -f "$written"
    say "status $status, $file is not written"
    exit $status
}

# page [COMMAND]: what the page of this script says, of a command alone where one is given
page() {
    awk -v command="${1-}" '
        /^commands:/ { inside = 1 }
        /^statuses:/ { inside = 0 }
        /^  [^ ]/ { mine = inside && $1 == command }
        command == "" || mine && NF { print; found = 1 }
        END { exit !found }' "$top/scripts/$me.txt"
}

version() {
    if [ -x "$program" ] && [ -f "$program.stamp" ]; then
        echo "$me of commit $(told commit), proved with $(told toolchain)"
        is_fresh || echo 'It is not of the present sources and toolchain, so the next call builds it anew.'
        ! is_package || echo "What was proved of it stands in $top/PROVED."
    else
        echo "$me of commit $(commit), not built yet"
    fi
}

# answer WORDS: what the script does. A line with its own words where they mean nothing gets the program's usage line
answer() {
    case ${1-} in
    -h | --help) page && exit ;;
    help) [ $# -le 2 ] && page "${2-}" && exit ;;
    --version) [ $# = 1 ] && version && exit ;;
    -o) to_file "$@" ;;
    *)
        for word; do
            case $word in
            -h | --help) page "$1" && exit || straight ;;
            -o | --version) straight ;;
            esac
        done
        straight "$@"
        ;;
    esac
    straight
}

# the file beside the one that -o writes
written=
# what shows on the terminal how far the program has come
watcher=
# words in front of a command that has it end with this script, however that ends
kill_too='setpriv --pdeathsig KILL --' term_too='setpriv --pdeathsig TERM --'
$kill_too true 2>/dev/null || kill_too='' term_too=''

if is_package; then
    crates=
else
    crates=$(libraries)
    [ -n "$crates" ] || stop "crates.txt has no crate $crate"
fi
