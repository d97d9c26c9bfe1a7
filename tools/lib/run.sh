# Runs the program of target/bin that has the command's name: walk, calls, sheet_vectors and ask; to be read with the command "." by these.
# They are made for Linux on x86-64. What they write goes on from here, so that a write that fails is said in the same words for each.
name=${0##*/}
here=$(cd "$(dirname "$0")" && pwd)
. "$here/lib/put.sh"

help() {
    echo "usage: tools/$name <INPUT"
    case $name in
    walk)
        echo "Sends the bytes of its input to the board and prints what the board does (docs/MANUAL.md, What walk prints)."
        echo "Each line of the input ends with a carriage return. For a file with line feeds: ./exercise FILE"
        ;;
    calls) echo "Drives the board call by call from a script and prints every answer (trial/README.md, calls)." ;;
    sheet_vectors)
        echo "Converts the sheet's values, given as the bits of floats, line by line (trial/README.md, sheet_main)."
        echo "For values as a person writes them: tools/steps"
        ;;
    ask)
        echo "Answers questions, one to a line: chains of distances, and joins of two programs (trial/README.md, ask)."
        echo "For distances as a person writes them: tools/steps LEAD STEPS GEAR --chain; for programs as files: tools/join"
        ;;
    esac
}

# Copies the program's output to descriptor 4. For walk it says on descriptor 3 whether nothing happened: then the output is the 13
# bytes of the lines `walk` and `E 0 0 0`, and no other is so short. dd copies each byte as it comes and counts them, up to 14.
copy() {
    if [ "$name" = walk ]; then
        counted=$(LC_ALL=C dd bs=1 count=14 2>&1 >&4) || return
        [ "${counted%%+*}" != 13 ] || echo "nothing happened" >&3
    fi
    put - >&4
}

# A carriage return always has an answer, so where nothing happened none came; the Return key of a terminal sends a line feed. No input
# is no mistake. A file can be looked at again: one without a line feed holds no line. What a pipe held is gone.
explain() {
    if [ ! -t 0 ] && [ -c /dev/stdin ]; then
        return
    fi
    if [ -f /dev/stdin ] && [ "$(wc -l </dev/stdin)" = 0 ]; then
        return
    fi
    cat >&2 <<'END'
walk: nothing happened, since no line came that ends with a carriage return (byte 13)
walk: a file with line feeds is taken by ./exercise FILE, or: tr '\n' '\r' <FILE | tools/walk
END
}

if [ $# -gt 0 ]; then
    if [ "$*" = --help ]; then
        help
        exit
    fi
    printf '%s: takes no argument, not "%s"; see: tools/%s --help\n' "$name" "$*" "$name" >&2
    exit 2
fi
program=$(dirname "$here")/target/bin/$name
if [ ! -x "$program" ]; then
    echo "$name: there is no program target/bin/$name; it is built by: tools/build $name" >&2
    exit 1
fi

# Descriptor 4 is our output. What is said on descriptor 3 becomes `said`, a line for each: what the program complains of, its status, and
# what `copy` says.
{ said=$({ { "$program" 2>&3 3>&- 4>&-; echo "status $?" >&3; } | copy; } 3>&1); } 4>&1
copied=$?
if [ "$copied" = 141 ]; then # the reader has closed its end, as head does
    exit 141
fi
if [ "$copied" != 0 ]; then
    echo "$name: its output could not be written" >&2
    exit 1
fi
if [ "$said" != "status 0" ]; then
    printf '%s\n' "$said" | sed '/^status [0-9]*$/d; /^nothing happened$/d' >&2
    status=$(printf '%s\n' "$said" | sed -n 's/^status \([0-9]*\)$/\1/p' | tail -n 1)
    if [ "$status" != 0 ]; then
        echo "$name: the program target/bin/$name died with status $status" >&2
        exit "$status"
    fi
fi
case $said in
*"nothing happened"*) explain ;;
esac
exit 0
