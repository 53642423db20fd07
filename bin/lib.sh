# Part of the scripts beside it and of tests/archive, which set `script`, the name that their messages begin with, and `root`, the folder of the
# repository. Those of bin/ also define `usage`, which prints how they are used.

# A caller's shell may hand its options down; job control would lose the status of rt.
set +C +e +m +u

# `say WORDS` tells a line on standard error, as it stands: a backslash in a file's name is one.
say() {
    printf '%s: %s\n' "$script" "$1" >&2
}

# `deliver STATUS TEXT` prints a text on standard output. It ends the script with this status where that cannot be written whole.
deliver() {
    if ! printf '%s\n' "$2" 2> /dev/null; then
        say "the output cannot be written"
        exit "$1"
    fi
}

# `help_or_go ARGUMENT` prints the usage and ends the script where the argument asks for it.
help_or_go() {
    case $1 in
        -h | --help)
            deliver 2 "$(usage)"
            exit 0
            ;;
    esac
}

# `misused` ends a script that was called in a wrong way.
misused() {
    usage >&2
    exit 2
}

# `readable FILE` ends the script with a message where the file cannot be read.
readable() {
    if [ ! -e "$1" ]; then
        say "there is no file '$1'"
    elif [ -d "$1" ]; then
        say "'$1' is a directory"
    elif [ ! -r "$1" ]; then
        say "'$1' may not be read"
    else
        return
    fi
    exit 2
}

# `plain_text` copies standard input without a byte-order mark at its start, which some editors write: as much as shows the programs, which read
# 65,535 bytes, that it is too long.
plain_text() {
    { head -c 65539 | LC_ALL=C sed "1s/^$(printf '\357\273\277')//"; } 2> /dev/null
}

# `ready CRATE FILE...` sets `program`, the program of a crate, which is proved and built on first use and after a change of the sources. The files
# can be read, before that and still after it.
ready() {
    program=$root/target/bin/$1
    crate=$1
    shift
    for file; do readable "$file"; done
    prove "bin/$crate" run "$crate"
    for file; do readable "$file"; done
    if [ ! -x "$program" ]; then
        say "$program may not be run"
        exit 2
    fi
}

# `prove FILE COMMAND CRATE` sees to it that this file of target/ is a copy of the one that `rt COMMAND`, run or lib, makes of the sources as they
# are, in the crate's out/. What is proved is told on standard error, crate by crate. It ends the script where there is no proof.
prove() {
    place "$1" "$3"
    if is_proved; then return; fi
    for command in rt flock setsid; do
        if ! command -v $command > /dev/null; then
            say "the command $command is not on the PATH: rt is of the Rattle kit, flock and setsid are of util-linux"
            exit 2
        fi
    done
    # One at a time. `test` holds the lock too while `rt ci` has the folders out/ aside. rt holds descriptor 9 as well, so that the lock is free
    # only when rt has ended, with which its provers end.
    if ! (: >> "$root/.lock") 2> /dev/null; then unwritable; fi
    exec 9>> "$root/.lock"
    if ! flock -n 9; then
        say "another script is proving in $root; waiting for it"
        flock 9 || unwritable
    fi
    if ! is_proved; then run_rt "$2" "$3"; fi
    exec 9>&-
}

# `place FILE CRATE` sets where this file of target/ is kept, with its mark and its log, and where rt makes it. It is a copy, since whoever runs rt in
# the crate's folder makes that of other sources, and `rt ci` moves out/ aside.
place() {
    made=$root/target/$1 mark=$root/target/proved/${1##*/} log=$root/target/$2.log
    from=$root/crates/$2/out/${1##*/}
}

# `unwritable` ends a script that cannot have its program proved.
unwritable() {
    say "${made#"$root/"} is not built from the sources as they are, and $root cannot be written"
    exit 2
}

# `is_proved`: what `prove` is asked for is there, and rt has proved it from the sources as they are. The mark, which `keep` makes, has what they
# looked like and what they held then; what they hold is asked where they look otherwise, as in a copy.
is_proved() {
    if [ ! -f "$made" ] || [ ! -r "$mark" ]; then return 1; fi
    { read -r looked && read -r held; } < "$mark" || return 1
    seen=$(looks)
    if [ -n "$seen" ] && [ "$seen" = "$looked" ]; then return 0; fi
    found=$(contents)
    if [ -z "$found" ] || [ "$found" != "$held" ]; then return 1; fi
    (printf '%s\n%s\n' "$seen" "$held" > "$mark.$$" && mv "$mark.$$" "$mark") 2> /dev/null
    return 0
}

# `looks` prints a sum of the names, sizes and times of the sources, `contents` one of what they hold; nothing where some cannot be read. What rt
# makes, in the crates' folders out/, is no source.
looks() {
    listed=$(sources -printf '%p %s %T@ %C@\n') || return 1
    printf '%s\n' "$listed" | LC_ALL=C sort | sha256sum
}
contents() {
    listed=$(sources -exec sha256sum {} +) || return 1
    printf '%s\n' "$listed" | LC_ALL=C sort | sha256sum
}
sources() {
    (cd "$root" && find -L crates crates.txt -regex 'crates/[^/]*/out' -prune -o -type f "$@") 2> /dev/null
}

# `run_rt COMMAND CRATE` runs rt in the crate's folder for `prove`. `rt run` also runs the program, on the crate's file stdin, and what it prints must
# be the crate's file stdout, as `rt ci` wants it. rt has a process group of its own, so that an interrupt can end the provers, which do not
# heed it themselves. The descriptors 3 and 4 are closed for the program; the script's own standard input is left for it.
run_rt() {
    if ! (mkdir -p "$root/target/proved" "${made%/*}" && rm -f "$mark" && : > "$log") 2> /dev/null; then unwritable; fi
    seen=$(looks)
    found=$(contents)
    crates=$(echo $(needed "$2"))
    printed=$log given=/dev/null wanted=/dev/null
    if [ "$1" = run ]; then printed=$root/target/$2.printed; fi
    if [ -e "$root/crates/$2/stdin" ]; then given=$root/crates/$2/stdin; fi
    if [ -e "$root/crates/$2/stdout" ]; then wanted=$root/crates/$2/stdout; fi
    say "proving and building ${made#"$root/"}, $(echo "$crates" | wc -w) crates; this takes some minutes the first time"
    for signal in HUP INT QUIT TERM; do trap "stop $signal" $signal; done
    : > "$printed"
    (cd "$root/crates/$2" && exec setsid rt "$1") >> "$printed" 2>> "$log" < "$given" 3<&- 4<&- &
    told=0
    while kill -0 "$!" 2> /dev/null; do
        sleep 0.2
        tell_proved
    done
    wait "$!" 2> /dev/null
    status=$?
    trap - HUP INT QUIT TERM
    # the status is the program's own where rt has run it
    if [ $status -ne 0 ] && grep -q '^rt: running ' "$log"; then
        echo "rt: $2 is proved, and its run FAILED with status $status" >> "$log"
    elif [ $status -eq 0 ] && [ "$1" = run ] && ! cmp -s "$printed" "$wanted"; then
        echo "rt: $2 is proved, and its run FAILED: $printed is not what its file stdout has" >> "$log"
        status=1
    elif [ $status -eq 0 ] && [ ! -f "$from" ]; then
        echo "rt: FAILED: there is no $from" >> "$log"
        status=1
    fi
    tell_proved
    if [ $status -ne 0 ]; then
        say "${made#"$root/"} is not proved, so it is not used; $log says why"
        exit 2
    fi
    keep || unwritable
}

# `keep` takes over what rt has made, and makes its mark. It is called only where rt has ended with status 0, so that all of it is proved: `rt run` and
# `rt lib` build nothing else, and `test` calls it after an `rt ci` that passed. The mark has the sums of the sources from before rt began,
# `seen` and `found`: a source that is saved meanwhile is another.
keep() {
    (cp "$from" "$made.$$" && mv "$made.$$" "$made" && printf '%s\n%s\n' "$seen" "$found" > "$mark") 2> /dev/null && return
    rm -f "$made.$$" "$mark"
    return 1
}

# `stop SIGNAL` ends the provers, and the script as by this signal, so that a loop of scripts ends with it.
stop() {
    trap '' HUP INT QUIT TERM
    if [ -n "$!" ]; then
        kill -KILL "-$!" 2> /dev/null || kill -KILL "$!" 2> /dev/null
        wait "$!" 2> /dev/null
    fi
    say "stopped; the crates that are proved need not be proved again"
    trap - "$1"
    kill "-$1" $$
}

# `tell_proved` tells what rt has printed since it was last called: the crates that it has proved, each with its place among those that are needed,
# and what is wrong. Of a library that is built already rt prints nothing.
tell_proved() {
    if [ ! -r "$log" ]; then return; fi
    lines=$(wc -l < "$log")
    if [ "$lines" -eq "$told" ]; then return; fi
    awk -v script="$script" -v crates="$crates" -v told="$told" -v lines="$lines" '
        BEGIN {
            total = split(crates, list, " ")
            for (k = 1; k <= total; k++) place[list[k]] = k
        }
        NR > lines { exit }
        /^rt: chose --jobs [0-9]+ for / { crate = $6 }
        NR <= told { next }
        $1 == "logic=proved" && crate in place { print script ": " place[crate] " of " total ": " crate; next }
        $1 == "logic=not-proved" { print script ": " crate " is NOT PROVED"; next }
        !/^rt: / || /^rt: (chose|running|nothing has changed) / || /^rt: [^ ]+: begins with / { next }
        { print script ": " substr($0, 5) }
    ' "$log" >&2
    told=$lines
}

# `needed CRATE` prints the crates of the repository that a crate needs, itself the last of them, in the order in which rt builds them.
needed() {
    awk -v crate="$1" '
        function visit(name, list, k, count) {
            if (!(name in needs) || name in seen) return
            seen[name]
            count = split(needs[name], list, " ")
            for (k = 1; k <= count; k++) visit(list[k])
            print name
        }
        { sub(/#.*/, "") }
        at = index($0, ":") {
            # a static library has a word after its name
            split(substr($0, 1, at - 1), words, " ")
            needs[words[1]] = substr($0, at + 1)
        }
        END { visit(crate) }
    ' "$root/crates.txt" 2> /dev/null
}

# `print FILE` prints what the program makes of a file: nothing where the program fails. The status also tells where the output could not be
# written whole.
print() {
    if ! text=$("$program" < "$1") || [ -z "$text" ]; then
        say "the program failed on $1"
        exit 2
    fi
    deliver 1 "$text"
}

# `meaning NUMBER PLACE SECOND` prints in words where and why a call is refused. The place of a file's refusal is a byte, counted from 0; other
# places are positions, 32 times the row plus the column.
meaning() {
    here="row $(($2 / 32)), column $(($2 % 32))"
    both="$here and row $(($3 / 32)), column $(($3 % 32))"
    case $1 in
        1) echo "byte $2: the number of rows or columns is not 1 to 30" ;;
        2) echo "a buffer does not have 1,024 elements" ;;
        3) echo "$here: a mark that cannot stand there" ;;
        4) echo "$here: a direction that cannot stand there, or none where a path must start" ;;
        5) echo "$here: the path from there runs over another fault, ends on a faulty spare, or is none that a dead processor may have" ;;
        6) echo "$both: the paths from there share a processor" ;;
        7) echo "$both: the paths from there are a near-miss" ;;
        8) echo "byte $2: the file ends early" ;;
        9) echo "byte $2: a number is longer than three bytes or not in its shortest form" ;;
        10) echo "byte $2: a fault is where no processor is, or a path starts where none may" ;;
        11) echo "byte $2: a place is listed a second time" ;;
        12) echo "byte $2: bytes follow the last record or the trials, or the number of dead processors is 0" ;;
        13) echo "byte $2: a direction is not 1 to 4" ;;
        14) echo "what is to be written needs room for $2 bytes" ;;
        15) echo "there is no such cell, no such side, or no processor where one is reported" ;;
        16) echo "$here: a switch letter that cannot stand there" ;;
        17) echo "$here: the track ends there" ;;
        18) echo "$here: the link would enter a fourth switch there" ;;
        19) echo "byte $2: a place is out of row order (from the top row down, each row from the left)" ;;
        20) echo "byte $2: a dead processor is not inside the array" ;;
        21) echo "the trials to be written are more than 2,097,151, the highest number of a file" ;;
        22) echo "$here: the failing processor is faulty already, or the recovering one is healthy" ;;
        23) echo "$here: the failing processor lies on the path of a fault, or the recovering one is dead" ;;
        24) echo "$here: no direction is left for the failing processor: each path is closed, or meets or nearly misses another" ;;
        *) echo "place $2: a reason that this script does not know" ;;
    esac
}

# `tell_refusal KIND FILE TEXT` tells in words on standard error why a file is no file of its kind, map or plan, where a program's text says that
# it is refused.
tell_refusal() {
    refusal=$(printf '%s\n' "$3" | sed -n 's/.*refused \([0-9]*\)\( at byte\)\{0,1\} \([0-9]*\).*/\1 \3/p')
    if [ -n "$refusal" ]; then
        say "'$2' is no $1 file: $(meaning "${refusal% *}" "${refusal#* }" 0) (refusal ${refusal% *})"
    fi
}

# `counted NUMBER THING` prints a number of things.
counted() {
    case $1 in 1) echo "1 $2" ;; *) echo "$1 $2s" ;; esac
}

# `tell_files MAP PLAN TEXT` tells in words on standard error why a map file and a plan file do not go together, where the first line of a
# program's text says so. The status is 1 then, else 2.
tell_files() {
    told=$3
    case $told in
        "map refused "*) tell_refusal map "$1" "$told" ;;
        "plan refused "*) tell_refusal plan "$2" "$told" ;;
        "sizes "* | "no plan "*)
            map=$1 plan=$2
            # the words of the line
            set -- $told
            case $told in
                "sizes "*) say "'$plan' is a plan file for $4 x $5 processors, but '$map' is a map of $2 x $3" ;;
                *) say "'$plan' is no plan for '$map': $(meaning "$3" "$4" "$5") (refusal $3)" ;;
            esac
            ;;
        *)
            say "the program failed on $1 and $2"
            return 2
            ;;
    esac
    case $told in "plan refused 8 "*) say "a plan file ends with the number of trials, after its last path" ;; esac
    return 1
}
