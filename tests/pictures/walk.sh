# Part of run: for the cases of walk, the picture has the size, the holes, the end of A and the notes that the pulses of the stored output give.

# A hole is counted for each place where the tool stood still in x and y and went deeper than it came and than it went on.
by_pulses() { # OUTPUT
    awk 'function least(a, b) { return a < b ? a : b }
    function most(a, b) { return a > b ? a : b }
    function step(i) { i = substr($2, i, 1); return i == "+" ? 1 : i == "-" ? -1 : 0 }
    function hole() { if (deep < came && deep < z && deep < 0) holes += !place[x, y]++; came = deep = z }
    /^L / { limit = 1 }
    /^P / {
        moved = 1
        aside = step(1) != 0 || step(2) != 0
        if (aside) hole()
        x += step(1); y += step(2); z += step(3); a += step(4)
        deep = least(deep, z)
        if (aside) came = deep = z
        else if (z >= 0) { hole(); came = deep = z }
        left = least(left, x); right = most(right, x); low = least(low, y); high = most(high, y)
    }
    END { print right - left, high - low, holes + 0, a + 0, moved + 0, limit + 0 }' "$1"
}

# With A alone there is no size in x and y.
by_picture() { # PICTURE
    awk '/size in x: / { gsub(/[^0-9 ]/, ""); n = split($0, part, " "); width = part[n - 1]; height = part[n] }
    /^<g class="holes"/ { inside = 1 }
    /^<\/g>/ { inside = 0 }
    /^<circle / { circles += inside }
    />end -?[0-9]+</ { sub(/.*>end /, ""); a = $0 + 0 }
    />A from .*, at the end / { sub(/.*, at the end /, ""); a = $0 + 0 }
    />no movement</ { still = 1 }
    />not over after 100,000 clock calls</ { limit = 1 }
    END { print width + 0, height + 0, circles + 0, a + 0, 1 - still, limit + 0 }' "$1"
}

for wanted in "$root"/tests/walk/*.out; do
    draw <"${wanted%.out}.in"
    is "tests/walk/$(basename "$wanted" .out)" "$(by_pulses "$wanted")" "$(by_picture "$dir/got")"
done
