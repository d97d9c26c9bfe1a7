# Prints a file and tells how that went; to be read with the command "." by a script.

put() { # FILE: status 141 if the reader has closed its end, as head does, be its signal ignored or not; 1 if it failed otherwise
    { why=$(LC_ALL=C cat "$1" 2>&1 >&3); } 3>&1
    status=$?
    case $status:$why in
    0:*) return 0 ;;
    141:* | *"roken pipe"*) return 141 ;;
    esac
    return 1
}
