# What the commands in this folder share; they source it with $root set to the repository's folder.

# Exit statuses, as sysexits.h numbers them: 0 an answer, 64 bad usage, 65 a text is refused, 66 a file cannot be read, 69 something needed is missing, 70 the program broke down.

# build NAME: proves and builds target/bin/NAME where it isn't there yet, or where a source is newer than it.
build() {
    [ -x "$root/target/bin/$1" ] && [ -z "$(find "$root/crates" -name out -prune -o -name '*.rt' -newer "$root/target/bin/$1" -print | head -n 1)" ] && return
    command -v rt >/dev/null || { echo "$1: not built yet, and the Rattle kit (rt) is missing" >&2; exit 69; }
    echo "$1: proving and building it first, which takes some minutes" >&2
    log=$(mktemp)
    (cd "$root/crates/$1" && rt run </dev/null && mkdir -p ../../target/bin && cp "out/$1" "../../target/bin/$1") >"$log" 2>&1 || { cat "$log" >&2; rm -f "$log"; echo "$1: not built" >&2; exit 69; }
    rm -f "$log"
}

# attend WORDS..: runs a command to its end, with this script's input, and gives its status. What ends this script by a signal ends the command too.
attend() {
    { command exec 3<&0; } 2>/dev/null || exec 3</dev/null
    "$@" <&3 &
    child=$!
    trap 'kill "$child" 2>/dev/null; exit 143' HUP INT TERM
    wait "$child"
}

# explain NUMBER LINE FILE: what a refusal of a text means, and the line, on standard error.
explain() {
    text=
    [ ! -f "$3" ] || [ "$2" = 0 ] || text=$(sed -n "$2{p;q;}" "$3" | tr -d '\000' | cut -c1-200)
    case $1:$text in
        1:*"$return" | 2:*"$return") why="the line ends in a carriage return; lines of aspif end in byte 10 alone" ;;
        1:*) why="line 1 of aspif is 'asp 1 0 0'"
            case $3 in *.lp) why="$why; a program for gringo goes through bin/mate" ;; esac ;;
        2:"4 "*) why="malformed; if the name has a byte outside 32 to 126: write names in ASCII" ;;
        2:) why="malformed; the last line must be '0', and no line is empty" ;;
        2:*) why="not a line of aspif 1.0.0: one space between numbers, none at the ends, no leading zeros, no -0, no minus in a body's bound or weight; nothing after the line '0'" ;;
        3:"1 "*) why="several atoms in a head: write a choice and a constraint" ;;
        3:*) why="a statement that is not read: #project, #external, assumptions, #heuristic, #edge or theory" ;;
        4:*) why="a number out of range: atoms up to 1024, weights -1000000 to 1000000, a body's 0 to 1000000, bounds up to 1000000000, priorities -1000 to 1000, names up to 64 bytes" ;;
        5:*) why="too large: 65536 bytes, 2048 rules, 16384 literals, 512 entries, 8 priorities, 512 symbols" ;;
        *) why="refusal $1" ;;
    esac
    echo "plan: $(basename -- "$3"), line $2: $why" >&2
    [ -z "$text" ] || printf '  %s\n' "$text" | LC_ALL=C tr -c ' -~\n' '?' >&2
}
return=$(printf '\r')
