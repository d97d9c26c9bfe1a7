# The picture and the table of measures of a stream; to be read with the command "." by a script that has set `lib` to this folder.
# They use: scale, as scale_of prints it, or empty; surface, as surface_of prints it, or empty; title; numbers, 1 or empty; lines, the file with
# the lines that were sent, each as `number text`.

is_whole() { # STREAM: whether calls has printed it to its end
    case $(tail -n 1 "$1") in
    'S '* | 'Q more') ! grep -q '^?' "$1" ;;
    *) return 1 ;;
    esac
}

follow() { # STREAM FILE...: runs these awk files behind those that follow the stream
    stream=$1
    shift
    files=
    for file in state replies turns circles follow round scale rows "$@"; do
        files="$files -f $file.awk"
    done
    set -- -v "surface=${surface:-0}" -v "scale=$scale"
    # The files are named without their folder, whose name may have spaces.
    # shellcheck disable=SC2086
    { LC_ALL=C sed 's/^/A /' "$lines" && cat "$stream"; } |
        (cd "$lib" && LC_ALL=C TITLE=$title awk "$@" -v "numbers=$numbers" -v "csv=$csv" $files)
}

picture_of() { # STREAM: prints the picture
    csv=
    follow "$1" plot marks dial plate
}

measures_of() { # STREAM [csv]: prints the table of measures, as text or as comma separated values
    csv=
    [ "${2-}" != csv ] || csv=1
    follow "$1" measure
}
