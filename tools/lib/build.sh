# Programs that are not built yet; to be read with the command "." by a script that has set `name` for its messages and `root`.

build() { # PROGRAM: proves and builds it, unless it is there
    [ ! -x "$root/target/bin/$1" ] || return 0
    if ! command -v rt >/dev/null; then
        echo "$name: the program $1 is not built, and the Rattle kit's command rt is not on the PATH" >&2
        return 1
    fi
    echo "$name: the program $1 is proved and built first, which takes some minutes" >&2
    "$root/tools/build" "$1"
}
