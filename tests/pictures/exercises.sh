# Part of run: each exercise has a stored picture, and it is drawn the same byte by byte.
scale=
surface=
numbers=
for text in "$root"/exercises/*.txt; do
    title=$(basename "$text" .txt)
    wanted=$root/exercises/$title.svg
    stream_of "$text"
    picture_of "$dir/stream" >"$dir/got"
    if [ ! -f "$wanted" ]; then
        differs "$title" "there is no $title.svg"
    elif cmp -s "$wanted" "$dir/got"; then
        same=$((same + 1))
    else
        differs "$title" "the picture is another one"
        diff "$wanted" "$dir/got" | sed -n '1,4p' | cut -c1-100 | sed 's/^/    /'
    fi
done
for wanted in "$root"/exercises/*.svg; do
    title=$(basename "$wanted" .svg)
    [ -f "$root/exercises/$title.txt" ] || differs "$title" "there is no $title.txt"
done
