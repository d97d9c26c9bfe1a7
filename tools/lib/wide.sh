# Files that are no plain text; to be read with the command "." by a script.
wide="is written in UTF-16: save it as plain text (UTF-8)"

is_wide() { # FILE: whether it begins with the mark of UTF-16
    case $(od -An -tx1 -N2 "$1" | tr -d ' ') in
    fffe | feff) return 0 ;;
    esac
    return 1
}
