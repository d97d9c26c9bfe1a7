# Part of run: what stands in the picture. Places were worked out by hand: at 40 units a step, and the middle of the plot at 340 and 295.

lines() { # LINE...: each with a return behind it
    printf '%s\r' "$@"
}

has() { # how many lines of the picture are like this
    grep -c -e "$1" "$dir/got"
}

# Steps as they are: the pulses of a slope of 4 by -2 lead to 1 -1, 2 -1, 3 -2 and 4 -2, and there is a dot for each.
lines @03 @0A4,600,-2,900 | draw
tr -d '\n' <"$dir/got" >"$dir/joined"
is "steps at a small size" 1 "$(grep -c 'M26000 25500L30000 29500L34000 29500L38000 33500L42000 33500"' "$dir/joined")"
is "a dot for each step" 1 "$(has '^<path class="steps" d="M30000 29500h0M34000 29500h0M38000 33500h0M42000 33500h0$')"
is "an arrow on the middle step" 1 "$(has '^<path class="arrows" d="M32550 29500L')"
lines @03 @0A400,600,-200,900 | draw
drawn "no steps at a large size" '!class="steps"' '^M5200 15100L62800 43900'

# Circles: the 16 pulses about the place 2 to the left of the start, and a dot for each; the arrow is on the other side, and goes down there.
round='M42000 29500L42000 25500L38000 25500L38000 21500L30000 21500L30000 25500L26000 25500L26000 33500L30000 33500L30000 37500L38000 37500L38000 33500L42000 33500'
lines @03 @0f-1 @0y16,600,0,2,0,-1,1 | draw
tr -d '\n' <"$dir/got" >"$dir/joined"
is "a circle along its pulses" 1 "$(grep -c "d=\"${round}L42000 29500\"" "$dir/joined")"
is "a dot for each pulse" 16 "$(sed -n 's/^<path class="steps" d="//p' "$dir/got" | tr -cd M | wc -c)"
is "the arrow of a circle" 1 "$(has '^<path class="arrows" d="M26000 30050L')"
drawn "the size of a circle" 'size in x: 4 steps, in y: 4 steps<'
lines @03 @0f-1 @0y99999,600,0,2,0,-1,1 | draw
tr -d '\n' <"$dir/got" >"$dir/joined"
is "around again and again" 1 "$(grep -c "d=\"${round}L42000 25500\"" "$dir/joined")"
is "a dot for each place, once" 16 "$(sed -n 's/^<path class="steps" d="//p' "$dir/got" | tr -cd M | wc -c)"
# The clockwise one has the same places, and its arrow on the other side goes up.
lines @03 @0y16,600,0,2,0,-1,-1 | draw
is "clockwise" 1 "$(has '^<path class="arrows" d="M26000 28950L')"
# A large one is a ring of small pieces, each place within half a unit of a circle of 213 units about the middle; its arrow is at the left.
ring() { # whether no place of the line lies farther inside, none farther outside, and the pieces are neither few nor very many
    sed -n '/class="go" d="$/,/^" stroke/p' "$dir/got" | tr 'ML' '\n\n' | awk -F '[ "]' '/^[0-9]+ [0-9]+"?$/ {
        d = ($1 - 34000) * ($1 - 34000) + ($2 - 29500) * ($2 - 29500)
        if (n++ == 0 || d < a) a = d
        if (d > b) b = d
    }
    END { print (a > 21250 * 21250), (b < 21350 * 21350), (n > 1000), (n < 5000) }'
}
lines @03 @0f-1 @0y80000,600,0,10000,0,-1,1 | draw
is "a large circle" "1 1 1 1" "$(ring)"
drawn "a large circle's size" 'size in x: 20000 steps, in y: 20000 steps<' '!class="steps"' '^<path class="arrows" d="M126[0-9][0-9] 29'
lines @03 @0A100,600,0,600 @0f-1 @0y800,600,0,100,0,-1,1 | draw
drawn "a circle about the start" 'size in x: 200 steps, in y: 200 steps<'
# With the tool up it is dashed, in the plate it is a groove; half of it is half.
lines @07 @0f-1 @0y32,600,0,4,0,-1,1 | draw
is "a dashed circle" "1 1" "$(has '^<path class="go"') $(has '^" stroke=.*stroke-dasharray="500 400"/>$')"
drawn "a circle with the tool up" '>tool up<' '!>cutting<'
lines @07 @0f-1 @0A0,600,0,600,-2,300,0,300 @0y16,600,0,4,0,-1,1 @0A0,600,0,600,2,300,0,300 | draw
drawn "a groove that is round" '>cutting<' '!tool up' 'size in x: 8 steps, in y: 4 steps<' '>deepest: 2 steps below the surface<' '!drilled hole'
is "a groove and a line, each in one piece" 2 "$(has '^M.*L')"
# Upright in x and z a circle is a line from above: down to 6 and up again, by five shades.
lines @07 @0e1 @0f-1 @0y24,600,0,-6,0,1,-1 | draw
drawn "a round ground" 'size in x: 12 steps, in y: 0 steps<' '>deepest: 6 steps below the surface<' '>1<' '>5 to 6<' '>cutting<' '!drilled hole' '!left down'
lines @07 @0e2 @0y8,600,0,2,0,-1,-1 | draw
drawn "upright in y and z" 'size in x: 0 steps, in y: 4 steps<' '>deepest: 2 steps below the surface<' '>end height: 0 steps<'
# Notes of circles.
lines @03 @0y4,600,0,2,0,-1,1 @0e1 @0y4,600,0,2,0,-1,-1 @0y4,600,0,0,0,-1,-1 @0i 'y 4,600,0,2,0,1,1' 9 @0S @0e0 @0S | draw
drawn "notes of circles" '>line 2: 1, wrong directions<' '>line 4: 3, plane with an axis not set<' '>line 5: 3, plane with an axis not set<' \
    '>run of line 9 ended with 3, axis not set<' '>run of line 11 ended with 1, wrong way<'

# The A axis. Three turns at one place are one mark there, and the dial has a line for each place of A, a circle where a hole was drilled;
# without the steps of a degree it is a gauge from the lowest place to the highest, over 270 degrees about 735, with a radius of 34.
holes() { lines @07 @08 @0A12,800,0,800,0,300,0,400; for i in 1 2 3; do lines @0A0,800,0,800,-4,300,0,400 "@0A0,800,0,800,4,300,$1,400"; done; }
holes 30 | draw
drawn "a ring of holes" 'class="turn".*>a +30, 3 times<' '>A turns here<' '>where A stood, steps<' '>start 0<' '>end 90<' '>3 turns<' 'size in x: 12 steps' '!class="ring"'
is "a mark for all turns at a place" 1 "$(has 'class="turn"')"
is "a line for each place of A" 4 "$(has 'class="stood"')"
is "a hole for each place where one was drilled" 3 "$(sed -n '/class="dial"/,/^<.g>$/p' "$dir/got" | grep -c '<circle cx=')"
is "a gauge from lower left to lower right" "71096 75904" "$(echo $(sed -n 's/^<g stroke="#000000" stroke-width="110"><circle cx="\(7[0-9]*\)" cy="[0-9]*" r="350".*/\1/p' "$dir/got" | sed -n 1p) $(sed -n 's/^<path class="stood" d="M\([0-9]*\) .*/\1/p' "$dir/got" | awk 'NR == 4 { print $1 + 283 }'))"
holes 30 | draw 80,80,400,1
drawn "degrees" 'class="turn".*>a +30&#176;, 3 times<' '>where A stood, degrees<' '>end 90&#176;<' '>steps per mm: 80, 80, 400; per degree: 1<'
is "a round dial: 0 at its top, 90 at its right" "73500 76900" "$(echo $(sed -n 's/.*<circle cx="\(7[0-9]*\)" cy="[0-9]*" r="350".*/\1/p' "$dir/got" | sed -n 1p) $(sed -n 's/^<path class="stood" d="M[0-9]* [0-9]*L\([0-9]*\) .*/\1/p' "$dir/got" | awk 'NR == 4 { print $1 - 400 }'))"
holes 30 | draw 80
drawn "no degrees by one number" '>a +30, 3 times<' '>where A stood, steps<' '!degree'
lines @07 @08 @0A0,800,0,800,0,300,30,400 @0A0,800,0,800,0,300,-7,400 | draw
drawn "turns that differ" 'class="turn".*>a: 2 turns<' '>end 23<' '>from 0 to 30<' '!drilled hole'
lines @07 @08 @0A9,800,0,800,-4,300,-30,400 @0A0,800,0,800,4,300,0,400 | draw
drawn "a turn in the plate" 'class="turn".*>a -30<' 'class="ring"' '>cutting<' '!drilled hole' '>deepest: 4 steps below the surface<'
# In 3D a mark stands where a movement ends. One that comes to the surface on its way is one turn; where A alone steps there is no corner.
lines @07 @08 @0A0,600,0,600,2,300,0,400 @0z1 @0A4,700,0,700,-4,300,40,300 | draw
drawn "a turn through the surface" 'class="turn".*>a +40<' '>1 turn<' '>cutting<' '>tool up<' 'size in x: 4 steps'
is "it has one mark" 1 "$(has 'class="turn"')"
lines @07 @08 @0z1 @0A3,700,2,700,0,300,90,300 | draw
tr -d '\n' <"$dir/got" >"$dir/joined"
is "the way of x and y beside a longer one of A" 1 "$(grep -c 'M28000 33500L32000 33500L32000 29500L36000 29500L36000 25500L40000 25500"' "$dir/joined")"
# A alone: the dial is the picture. 60 and -20 of 80 steps lie 270 degrees apart.
lines @08 @0A60,400 @0A-80,900 | draw
drawn "A alone" '^<title>The turntable<' '>a turn<' '>A stood here<' '>A from -20 to 60 steps, at the end -20<' '>2 turns<' '>200 to 499<' '>500 to 999<' 'class="stands".*>60<' '!size in x' '!no movement' '!>origin<' '!>x<'
is "a sweep for each turn" 2 "$(has 'class="sweep"')"
is "a place each" 3 "$(has 'class="stands"')"
lines @08 @0A60,400 @0A-80,900 | draw 1,1,1,2 --numbers --title plate
drawn "A alone in degrees" '>The turntable<' '>A from -10&#176; to 30&#176;, at the end -10&#176;<' '>steps per degree: 2<' 'preserve">  1  turn .* 30.000'
lines @08 | draw
drawn "A alone, at rest" '>no movement<' '>A from 0 to 0 steps, at the end 0<'
awk 'BEGIN { printf "@08\r"; for (i = 0; i < 400; i++) printf "@0A9,400\r" }' | draw
is "many places have few figures" 1 "$(awk '/class="stands"/ { n++ } END { print (n > 10 && n < 60) }' "$dir/got")"
is "few sweeps are drawn" 200 "$(has 'class="sweep"')"
awk 'BEGIN { printf "@07\r@08\r"; for (i = 0; i < 100; i++) printf "@0A%d,400,%d,400,0,400,9,400\r", i % 7 * 40, i % 5 * 30 - 60 }' | draw
is "many turns have no more than 60 marks" 1 "$(awk '/class="turn"/ { n++ } END { print (n > 5 && n <= 60) }' "$dir/got")"
# A that was dropped is still in the picture; @08 moves no table. Notes.
lines @03 @08 @07 @08 @0A2,600,0,600,0,300,8,300 @08 @0A2,600,0,600,0,300,8,300 @07 | draw
drawn "A set again, and dropped" '>line 2: 3, A takes @07 first<' '>end 16<' 'size in x: 4 steps'
lines @07 @0A2,600,0,600,0,300,0,300 | draw
drawn "no A" '!dial' '!>where A stood' '!>A turns here<'

# Dashes: short moves are one line with whole dashes; a way back over the same line is not drawn again; the shortest have short dashes.
lines @07 @0A9,600,0,600,0,300,0,300 @0A1,600,0,600,0,300,0,300 @0A1,600,0,600,0,300,0,300 @0A0,600,1,600,0,300,0,300 | draw
is "short moves are one line" "1 1" "$(has '^<path class="go"') $(has '^" stroke=.*stroke-dasharray="500 400"/>')"
lines @07 @0A5,600,0,600,-2,300,2,300 @0A5,600,0,600,-2,300,2,300 @0A-10,600,0,600,0,300,0,300 | draw
is "there and back" 2 "$(has '^L\|^<path class="go"')"
lines @07 @0A0,600,9,600,0,300,0,300 @0A900,600,0,600,-2,300,0,300 @0A0,600,9,600,2,300,0,300 @0A1,600,0,600,0,300,0,300 | draw
is "a very short way" 1 "$(has 'stroke-dasharray="100 80"')"

# Arrows, depths and shades.
lines @03 @0A9,600,0,600 @0A-9,600,0,600 | draw
is "an arrow there and one back" 2 "$(sed -n 's/^<path class="arrows" d="\(.*\)" fill.*/\1/p' "$dir/got" | tr -cd z | wc -c)"
lines @03 @0A9,100,0,600 @0A0,600,9,2500 | draw
is "a colour for each speed" "333333 D55E00" "$(echo $(sed -n 's/^" stroke="#\(.*\)" stroke-width="180".*/\1/p' "$dir/got"))"
drawn "speeds" '>30 to 199<' '>2,500 to 10,000<' '!>500 to 999<'
lines @07 @0A0,600,0,600,-2,300,0,300 @0A9,600,0,600,0,300,2,300 | draw
drawn "a groove" '>cutting<' '!tool up' '!drilled hole' '!left down'
lines @07 @0A5,600,0,600,-2,300,2,300 @0A5,600,0,600,-7,300,7,300 | draw
drawn "two depths" '>depth below the surface, steps<' '>2<' '>7<' '>deepest: 7 steps below the surface<' '>end height: 0 steps<' '!cutting'
is "a shade for each depth" 2 "$(sed -n '/class="holes"/,/<.g>/s/.*<circle.*fill="\(.*\)".*/\1/p' "$dir/got" | sort -u | wc -l)"
lines @07 @0z1 @0A100,600,0,600,-50,300,0,300 | draw
drawn "a ramp has five shades" '>1 to 10<' '>11 to 20<' '>21 to 30<' '>31 to 40<' '>41 to 50<' '>cutting<'

# The tool left down, and the height at the end.
lines @07 @0A5,600,0,600,-4,300,0,300 | draw
is "the mark of a tool left down, in the plot and in the list" 2 "$(has '^<path class="left"')"
drawn "left down" '>tool left down at -4<' '>end height: -4 steps, tool left down<'
lines @07 @0A5,600,0,600,-4,300,5,300 | draw
drawn "not left down" '!class="left"' '!left down' '>end height: 1 step<' '>drilled hole<'

# A surface: touching off at 20 below the start, then drilling 4 into the plate.
touch() { lines @07 @0A0,600,0,600,-20,200,0,200 @0N4 @0A5,600,0,600,-4,300,4,300; }
touch | draw
drawn "touched off, without a surface" '>end height: -20 steps, tool left down<' '!drilled hole'
touch | draw --surface -20
drawn "touched off" '>drilled hole<' '>deepest: 4 steps below the surface<' '>end height: -20 steps<' '>surface 20 steps below the start<' '!left down'
lines @03 @0A5,600,0,600 | draw --surface 3
drawn "two axes in a plate" '>cutting<' '>surface 3 steps above the start<' '>deepest: 3 steps below the surface<'

# One and two axes have no tool that is up; places of records; titles.
lines @03 @0A5,600,3,600 | draw
drawn "two axes" '>movement<' '!tool up' '!cutting' '!hole' '!depth' '!end height' '!dasharray' '!class="place"' '^<title>The plate seen from above<'
grid() { lines @03 @0i '0 5,600,0,600' '0 0,600,4,600' '0 -5,600,-4,600' '0 0,600,-3,600' 9 @0S; }
grid | draw
drawn "places of records" 'class="place".*>0,3<' 'class="place".*>1<' 'class="place".*>2<' '>record that begins here<'
grid | draw --title 'a < b & "c" \n'
drawn "a title" '^<title>a &lt; b &amp; &quot;c&quot; \\n</title>$' 'font-size="20">a &lt; b &amp; &quot;c&quot; \\n<' '>The plate seen from above<'
grid | draw --title "$(printf '\303\234bung \303')"
drawn "a title that is no UTF-8" '^<title>??bung ?</title>$'
grid | draw --title "$(printf '\303\234bung')"
drawn "a title in UTF-8" "^<title>$(printf '\303\234')bung</title>\$"

# Every place that was the origin has a cross: the start, where the positions were set to 0, and where the origin was moved in x alone.
lines @03 @0A5,600,0,600 @0N3 @0A5,600,5,600 @0n1 | draw
is "origins" "14000 34000 54000" "$(echo $(sed -n 's/^<path d="M\([0-9]*\) 39500m-1300 0h2600.*/\1/p' "$dir/got"))"

# Notes: refusals with their line, how runs ended, characters sent.
lines hello @03 @0A5,600 @0i '0 5,600,0,600' '1 60' 7 9 @0S @09 | draw
drawn "notes" '>line 1: 5, this is no line of the board<' '>line 3: 7, too few or too many numbers<' '>line 7: 5, this is no record<' \
    '>run of line 9 ended with 0<' '>line 10: 3, these axes are not allowed<' '>sent by the program: &lt;<'
# A program refused at its end line: which record, and why. The single G of a start has its own words.
lines @01 @0i '1 33' '3 0,5' 9 @0i '1 33' '3 2,-2' 9 @0i '1 33' '3 25,-1' '3 2,-1' 9 @0i '3 0,1' '1 33' '3 1,-1' 9 @0i '1 33' 9 @03 @0S | draw
drawn "refused at the end line" '>line 5: Ga0001, target outside<' '>line 9: Gb0001, loop starts too early<' '>line 14: Gc0002, loops overlap<' \
    '>line 19: Ge0000, jump across a loop<' '>line 24: G, stored under other axes<'
lines @01 @0i '1 33' '3 1,-1' '3 1,-2' '3 1,-3' '3 1,-4' '3 1,-5' '3 1,-6' '3 1,-7' '3 1,-8' 9 @0S | draw
drawn "refused for its depth" '>line 12: Gd0000, more than seven loops<' '>line 13: 8, no program is stored<' '>no movement<'
lines @01 @0i '0 5,600' '0 8388607,600' 9 @0S | draw
drawn "a run into nine" '>run of line 6 ended with 9, out of range<'
lines @01 @0A5,600 @0i '0 8388607,600' 9 @0S | draw
drawn "a run into nine at once" '>run of line 6 ended with 9, out of range<'
for i in 1 2 3 4 5 6 7 8 9 10 11 12; do lines a b c d e f g h; done | draw
drawn "more notes than there is room for" '>line 1: 5' '>and [0-9]* more<'
is "notes end above the edge" 1 "$(awk -F '"' '/class="note"/ && $4 > y { y = $4 } END { print (y > 600 && y < 640) }' "$dir/got")"
is "notes are counted" 96 "$(awk '/class="note"/ { n++ } />and [0-9]+ more</ { sub(/.*and /, ""); n += $1 - 1 } END { print n }' "$dir/got")"
printf '%s\n' @01 @0i '0 5,600' '2 89,1' 9 start break start 'clock 2' stop @0A1,600 reset @01 start >"$dir/words"
stream_of "$dir/words"
title= scale= surface= numbers=
picture_of "$dir/stream" >"$dir/got" 2>"$dir/said"
echo $? >"$dir/status"
drawn "stop, break and reset" '>run of line 6 ended with F, a break<' '>line 10: F, stopped<' '>line 11: W, something stands stopped<' \
    '>run of line 8 ended by a reset<' '>run of line 14 waits for a character<'

# A run without end: the picture says so, and what is sent after it is not used. A run of 100,000 clock calls is over.
lines @01 @0i '0 1,600' '3 0,-1' 9 @0S | draw
drawn "a run without end" '>not over after 100,000 clock calls<' '!is not over<'
lines @01 @0A100000,600 @0A50000,600 | draw
drawn "100,000 pulses and a 0" '>not over after 100,000 clock calls<' 'size in x: 100000 steps'
lines @01 @0A99999,600 @0A1,600 | draw
drawn "99,999 pulses and a 0" 'size in x: 100000 steps' '!not over'

# Millimetres. 1,000 steps of a hundredth in x and 500 of a fiftieth in y are a square of 10 mm; at 42.6 units a mm it fills the height.
lines @01 @0A3,600 | draw 1
drawn "1 step per mm" 'size in x: 3 mm, in y: 0 mm<' '>2 mm<' '>steps per mm: 1<'
lines @01 @0A1234,600 | draw 100
drawn "100 steps per mm" 'size in x: 12.34 mm, in y: 0 mm<' '>2 mm<' '>steps per mm: 100<'
lines @03 @0A1205,600,20,600 | draw 100
drawn "decimals without noughts" 'size in x: 12.05 mm, in y: 0.2 mm<'
lines @01 @0A3,600 | draw 100000
drawn "100000 steps per mm" 'size in x: under 0.01 mm, in y: 0 mm<' '>0.00002 mm<'
lines @01 @0A5,600 | draw 0.5
drawn "half a step per mm" 'size in x: 10 mm, in y: 0 mm<' '>5 mm<' '>steps per mm: 0.5<'
lines @03 @0A1000,600,0,600 @0A0,600,500,600 | draw 100,50,400
tr -d '\n' <"$dir/got" >"$dir/joined"
drawn "a scale for each axis" 'size in x: 10 mm, in y: 10 mm<' '>steps per mm: 100, 50, 400<'
is "true proportions" 1 "$(grep -c 'M12700 50800L55300 50800L55300 8200"' "$dir/joined")"
lines @07 @0A5,600,0,600,-50,300,0,300 | draw 80,80,400
drawn "depth in mm" '>deepest: 0.13 mm below the surface<' '>end height: -0.13 mm, tool left down<' '>tool left down at -0.13<'

# The rows of the table in the picture.
lines @07 @0i '0 3,900,0,900,-2,300,2,300' '3 2,-1' 9 @0S | draw --numbers
drawn "numbers" 'class="number".*>1<' 'class="number".*>3<' '>row of the table below<' 'preserve">  *3  hole .* 9  0 .* 2 .*3 *6<' '!and .* more'
lines @07 @0i '0 3,900,0,900,-2,300,2,300' '3 64,-1' 9 @0S | draw --numbers
drawn "more rows than are shown" '>and 5 more<' 'preserve"> *60  hole' '!preserve"> *61 '
lines @07 | draw --numbers
drawn "no rows" '>the table of measures has no row<'

# Nothing stands on anything else: no two texts of a picture overlap, taking a letter for half as wide as it is high.
overlaps() { # PICTURE
    awk -F '"' '/^<text / {
        size = match($0, /font-size="[0-9.]+/) ? substr($0, RSTART + 11) + 0 : 13
        text = $0
        sub(/^[^>]*>/, "", text)
        sub(/<.*/, "", text)
        gsub(/&[^;]*;/, "x", text)
        wide = length(text) * size / 2
        n++
        left[n] = $2 - (/text-anchor="end"/ ? wide : /text-anchor="middle"/ ? wide / 2 : 0)
        right[n] = left[n] + wide
        low[n] = $4
        high[n] = $4 - size * 0.7
        if (right[n] > 960 || low[n] > 640 && !/monospace|more</) print "outside: " text
        for (i = 1; i < n; i++)
            if (left[i] < right[n] && left[n] < right[i] && high[i] < low[n] && high[n] < low[i]) print "overlap: " text
    }' "$1"
}
for picture in "$root"/exercises/*.svg; do
    is "texts of $(basename "$picture")" "" "$(overlaps "$picture")"
done
crowded() { # all that the list at the side can have, and more notes than there is room for
    lines @07 hello @0A10,600 @0A30,100,0,100,-4,100,4,100 @0A0,300,30,300,-4,300,4,300 @0A30,700,0,700,-1,700,1,700
    lines @0A0,1500,30,1500,0,700,0,700 @0A30,5000,0,5000,0,700,0,700 @0z1 @0A60,700,-60,700,-100,700,0,700 @0z0
    lines @0A0,700,0,700,103,700,0,700 @0n3 a b c d e f g h @0i '1 60' '1 62' '1 38' '1 34' '1 60' '1 62' '1 38' '1 34' '1 60' '1 62' '1 38'
    lines '1 34' '1 60' '1 62' '0 5,800,5,800,-7,800,3,800' '0 3,800,-9,800,-3,800,0,800' '3 0,0' 9 @0S
}
crowded | draw 80,80,400.125 --surface -3 --numbers --title 'A program with a name that is much longer than any program ought to have'
drawn "a crowded picture" '>tool up<' '>cutting<' '>drilled hole<' '>tool left down at -0.01<' '>not over after 100,000 clock calls<' \
    '>steps per mm: 80, 80, 400.125<' '>and [0-9]* more<' '>sent by the program: '
is "texts of a crowded picture" "" "$(overlaps "$dir/got")"
{ crowded | sed 's/^@07\r/@07\r@08\r/; s/@0z1/@0A1,700,0,700,0,700,50,700\r@0z1/'; } | draw 80,80,400.125,10 --surface -3 --title x
drawn "a crowded picture with A" '>where A stood, degrees'
is "texts of a crowded picture with A" "" "$(overlaps "$dir/got")"
holes 30 | draw 80,80,400,1 --numbers --title x
is "texts of a ring of holes" "" "$(overlaps "$dir/got")"
