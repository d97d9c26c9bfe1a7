# Part of run: the same bytes under every awk that is found.

under() { # AWK...: a folder for the PATH in which awk is this one
    mkdir -p "$dir/$1"
    printf '#!/bin/sh\nexec %s "$@"\n' "$*" >"$dir/$1/awk"
    chmod +x "$dir/$1/awk"
}

compared() { # NAME: what is wanted and what came
    if cmp -s "$dir/wanted" "$dir/got"; then
        same=$((same + 1))
    else
        differs "$1" "$(cmp "$dir/wanted" "$dir/got" 2>&1)"
    fi
}

by_awk() { # FILE PATH: the picture and the table of an input, under the awk of a path
    PATH=$2 "$root/tools/plate" 80,80.5,400 --surface -1 --numbers --title x <"$1"
    PATH=$2 "$root/tools/plate" 80,80,400,0.7 <"$1"
    PATH=$2 "$root/tools/plate" 80,80,400,0.7 --csv <"$1"
    PATH=$2 "$root/tools/plate" 80,80.5,400 --measure <"$1"
    PATH=$2 "$root/tools/plate" <"$1"
}

slopes() { # slopes up and down that cross each other, with grooves and holes
    awk 'BEGIN {
        printf "@07\r"
        for (i = 1; i < 120; i++) printf "@0A%d,600,%d,%d,%d,300,%d,300\r", i * 37 % 23 - 11, i * 53 % 31 - 15, 100 + i * 40, i * 7 % 5 - 2, i * 5 % 7 - 3
    }'
}
rounds() { # circles of all planes, up and down through the surface, small and large, about one point and along a way
    awk 'BEGIN {
        printf "@07\r"
        for (i = 1; i < 60; i++) {
            d = i % 3 ? 0 : -1
            t = d ? -1 : 1
            u = (i * 37 % 23 - 11) * (i % 7 ? 1 : 40)
            v = (i * 53 % 31 - 15) * (i % 5 ? 1 : 30)
            if (u == 0 && v == 0) u = 1
            a = v ? t * (v > 0 ? 1 : -1) : u > 0 ? -1 : 1
            b = u ? -t * (u > 0 ? 1 : -1) : v > 0 ? -1 : 1
            printf "@0e%d\r@0f%d\r@0y%d,%d,0,%d,%d,%d,%d\r@0A%d,600,3,600,%d,300,0,300\r", i % 4 ? 0 : 1 + i % 8 / 4, d, i * i * 3, 100 + i * 40, u, v, a, b, i % 9, i % 3 - 1
        }
    }'
}
turns() { # A up and down a scale of its own, beside the others and by itself, in 2.5D and in 3D, in the plate and out of it
    awk 'BEGIN {
        printf "@07\r@08\r"
        for (i = 1; i < 80; i++) printf "@0z%d\r@0A%d,600,%d,%d,%d,300,%d,300\r", i % 3 == 0, i * 37 % 23 - 11, i % 4 ? 0 : i * 53 % 31 - 15, 100 + i * 40, i * 7 % 5 - 2, i * 29 % 67 - 30
    }'
}
alone() { # A alone, to and fro, more than once around
    awk 'BEGIN {
        printf "@08\r"
        for (i = 1; i < 60; i++) printf "@0A%d,%d\r", i * 41 % 301 - 140, 100 + i * 60
    }'
}
told_by() { # PATH: what ./exercise says of programs that are refused at their end line, of spaces and of words, under the awk of a path
    for text in named spaces words circles turns; do
        PATH=$1 "$root/exercise" "$root/tests/own/$text.txt" --no-picture
    done
}
slopes >"$dir/slopes"
rounds >"$dir/rounds"
turns >"$dir/turns"
alone >"$dir/alone"
grep -v '^#' "$root/exercises/ramp-3d.txt" | tr '\n' '\r' >"$dir/ramp"
for awk in mawk gawk 'busybox awk' original-awk; do
    command -v "${awk%% *}" >/dev/null || continue
    # shellcheck disable=SC2086
    under $awk
    for file in slopes rounds ramp turns alone; do
        by_awk "$dir/$file" "$PATH" >"$dir/wanted"
        by_awk "$dir/$file" "$dir/${awk%% *}:$PATH" >"$dir/got"
        compared "$file under $awk"
    done
    told_by "$PATH" >"$dir/wanted"
    told_by "$dir/${awk%% *}:$PATH" >"$dir/got"
    compared "the words under $awk"
done
