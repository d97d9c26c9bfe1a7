# Arguments that tools/plate and ./exercise share; to be read with the command "." by a script that has set `name` for its messages.

complain() { # TEXT...: a message on standard error
    printf '%s: %s\n' "$name" "$*" >&2
}

# One number of steps per mm or degree: digits, and perhaps a point and digits; from 0.001 to 1,000,000.
is_scale() { # TEXT
    case $1 in
    '' | *[!0-9.]* | *.*.* | .* | *. | ???????????????*) return 1 ;;
    esac
    LC_ALL=C awk -v n="$1" 'BEGIN { exit !(n + 0 >= 0.001 && n + 0 <= 1000000) }'
}

# The steps per mm of x, y and z, and per degree of A where they are given: of a text that has one number for x, y and z, or three with commas
# between, or four.
scale_of() { # TEXT
    case $1 in
    *,*,*,*,* | *,) set -- "$1" ;;
    *,*,*)
        rest=${1#*,}
        set -- "$1" "${1%%,*}" "${rest%%,*}" "${rest#*,}"
        case $4 in
        *,*) set -- "$1" "$2" "$3" "${4%,*}" "${4#*,}" ;;
        esac
        ;;
    *) set -- "$1" "$1" "$1" "$1" ;;
    esac
    if is_scale "${2-}" && is_scale "${3-}" && is_scale "${4-}" && is_scale "${5-1}"; then
        echo "$2 $3 $4${5+ $5}"
        return 0
    fi
    complain "\"$1\" is no number of steps per mm: one from 0.001 to 1000000, or three as x,y,z, or four as x,y,z,a with a's steps per degree"
    return 1
}

# The height of the plate in steps above the start: a whole number of at most eight digits, with a minus if it lies below.
surface_of() { # TEXT
    case ${1#-} in
    '' | *[!0-9]* | ?????????*)
        complain "\"$1\" is no height of the surface: a whole number of steps above the start, or below it with a minus"
        return 1
        ;;
    esac
    echo "$1"
}
