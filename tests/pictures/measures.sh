# Part of run: the table of measures. The rows were written by hand from the programs' texts.

measured() { # NAME WANTED: the table just printed, its spaces made one
    went_well "$1" || return
    tr -s ' ' <"$dir/got" | sed 's/^ //; s/ $//' >"$dir/rows"
    printf '%s\n' "$2" >"$dir/wanted"
    if cmp -s "$dir/wanted" "$dir/rows"; then
        same=$((same + 1))
    else
        differs "$1" "other rows"
        diff "$dir/wanted" "$dir/rows" | sed -n '1,6p' | sed 's/^/    /'
    fi
}

steps='number,what,from_x,from_y,from_z,to_x,to_y,to_z,depth,record,pass,line'
mm='from_x_mm,from_y_mm,from_z_mm,to_x_mm,to_y_mm,to_z_mm,depth_mm'

# Five holes, 5 apart and 4 deep, by five passes of record 0.
row() { lines @07 @0i '0 5,800,0,800,-4,300,4,300' '3 4,-1' 9 @0S; }
row | draw --csv
measured "a row of holes, CSV" "$steps
1,hole,5,0,0,5,0,-4,4,0,1,6
2,hole,10,0,0,10,0,-4,4,0,2,6
3,hole,15,0,0,15,0,-4,4,0,3,6
4,hole,20,0,0,20,0,-4,4,0,4,6
5,hole,25,0,0,25,0,-4,4,0,5,6"
row | draw --measure
measured "a row of holes" "no. what from x y z to x y z depth record pass line
1 hole 5 0 0 5 0 -4 4 0 1 6
2 hole 10 0 0 10 0 -4 4 0 2 6
3 hole 15 0 0 15 0 -4 4 0 3 6
4 hole 20 0 0 20 0 -4 4 0 4 6
5 hole 25 0 0 25 0 -4 4 0 5 6
5 holes, 0 cuts; end at x 25, y 0, height 0 steps"
is "columns are aligned" 1 "$(sed '$d' "$dir/got" | awk '{ print length($0) }' | sort -u | wc -l)"

# The same lines with a space behind each comma, and again without: the same rows, and the same picture.
spaced() { lines @07 @0i '0 5, 800, 0, 800, -4, 300, 4, 300' '3 1, -1' 9 @0S; }
spaced | draw --csv
measured "spaces behind commas, CSV" "$steps
1,hole,5,0,0,5,0,-4,4,0,1,6
2,hole,10,0,0,10,0,-4,4,0,2,6"
spaced | sed 's/, /,/g' | draw --numbers
cp "$dir/got" "$dir/plain"
spaced | draw --numbers
is "the picture with spaces behind commas" 1 "$(grep -c 'size in x: 10 steps' "$dir/got")"
is "the picture without them" same "$(cmp -s "$dir/plain" "$dir/got" && echo same)"

# Two grooves of 6 in y, 3 deep, by record 1; 80 steps per mm in x and y and 400 in z. 3 / 400 is 0.0075, and a half goes away from nought.
rack() { lines @07 @0i '0 0,600,0,600,-3,200,0,200' '0 0,600,6,400,0,200,0,200' '0 0,600,0,600,3,900,0,200' '0 4,900,-6,900,0,200,0,200' '3 1,-4' 9 @0S; }
rack | draw 80,80,400 --csv
measured "grooves in mm, CSV" "number,what,from_x,from_y,from_z,to_x,to_y,to_z,depth,$mm,record,pass,line
1,cut,0,0,-3,0,6,-3,3,0.000,0.000,-0.008,0.000,0.075,-0.008,0.008,1,1,9
2,cut,4,0,-3,4,6,-3,3,0.050,0.000,-0.008,0.050,0.075,-0.008,0.008,1,2,9"
rack | draw --measure 80,80,400
measured "grooves in mm" "steps mm
no. what from x y z to x y z depth from x y z to x y z depth record pass line
1 cut 0 0 -3 0 6 -3 3 0.000 0.000 -0.008 0.000 0.075 -0.008 0.008 1 1 9
2 cut 4 0 -3 4 6 -3 3 0.050 0.000 -0.008 0.050 0.075 -0.008 0.008 1 2 9
0 holes, 2 cuts; end at x 8, y 0, height 0 steps (x 0.100, y 0.000, height 0.000 mm)"

# A wait is answered twice: Y leads over record 1 to the loop and back to the wait, N to record 1, which is then in its first pass.
waiting() { lines @01 @0i '2 89,2' '0 2,600' '3 1,-2' 9 @0S; printf YN; }
waiting | draw --measure
measured "behind a wait" "no. what from x y to x y record pass line
1 line 0 0 2 0 1 1 7
1 line; end at x 2, y 0 steps"

# Behind the answer record 1 has nothing to do in its first pass, for the table is there already; its way back is its second.
still() { lines @01 @0A2,600 @0i '2 89,1' 'm 2,600' '0 3,600' '3 1,-3' 9 @0S; printf YY; }
still | draw --measure
measured "a pass without a step" "no. what from x y to x y record pass line
1 line 0 0 2 0 - - 2
2 line 2 0 5 0 2 1 9
3 line 5 0 2 0 1 2 9
4 line 2 0 5 0 2 2 9
4 lines; end at x 5, y 0 steps"

# The pattern of two records: lines without heights. With one record back, as the old board did it, only the second is repeated.
pattern() { lines @03 @0i '0 3,600,0,600' '0 0,600,2,500' "3 2,$1" 9 @0S; }
pattern -2 | draw --measure
measured "two records" "no. what from x y to x y record pass line
1 line 0 0 3 0 0 1 7
2 line 3 0 3 2 1 1 7
3 line 3 2 6 2 0 2 7
4 line 6 2 6 4 1 2 7
5 line 6 4 9 4 0 3 7
6 line 9 4 9 6 1 3 7
6 lines; end at x 9, y 6 steps"
pattern -1 | draw --csv 2.5
measured "two records, one repeated" "number,what,from_x,from_y,from_z,to_x,to_y,to_z,depth,$mm,record,pass,line
1,line,0,0,0,3,0,0,,0.000,0.000,0.000,1.200,0.000,0.000,,0,1,7
2,line,3,0,0,3,2,0,,1.200,0.000,0.000,1.200,0.800,0.000,,1,1,7
3,line,3,2,0,3,4,0,,1.200,0.800,0.000,1.200,1.600,0.000,,1,2,7
4,line,3,4,0,3,6,0,,1.200,1.600,0.000,1.200,2.400,0.000,,1,3,7"

# Lines sent by themselves: a hole deeper than the groove that begins there; the groove; a second hole at its end, left as it is.
lines @07 @0A0,600,0,600,-6,300,3,300 @0A10,600,0,600,-2,300,0,300 | draw --csv
measured "a hole at a groove" "$steps
1,hole,0,0,0,0,0,-6,6,,,2
2,cut,0,0,-3,10,0,-3,3,,,3
3,left down,10,0,-3,10,0,-5,5,,,3"
lines @07 @0A0,600,0,600,-4,300,2,300 @0A0,600,0,600,-3,300,5,300 @0A0,600,0,600,-1,300,1,300 | draw --csv
measured "a hole by two lines, then another at the same place" "$steps
1,hole,0,0,0,0,0,-5,5,,,3
2,hole,0,0,0,0,0,-1,1,,,4"
lines @07 @0A3,600,0,600,-20,300,5,300 @0A3,600,0,600,-9,300,9,300 | draw --measure --surface -20
measured "a surface below" "no. what from x y z to x y z depth record pass line
1 hole 6 0 -20 6 0 -24 4 - - 3
1 hole, 0 cuts; end at x 6, y 0, height -15 steps"

# In 3D a cut begins where it comes below the surface: from 2 above, 4 down over 8 in x crosses it in the middle.
lines @07 @0A0,600,0,600,2,300,0,300 @0z1 @0A4,700,0,700,-4,300,0,300 @0A4,700,0,700,4,300,0,300 | draw --csv
measured "a ramp through the surface" "$steps
1,cut,2,0,0,4,0,-2,2,,,4
2,cut,4,0,-2,6,0,0,2,,,5"

# A pass counts from the start, a second start counts anew, and a movement without a step is a pass as well; a stop changes nothing.
lines @03 @0i 'm 0,600,0,600' '0 3,600,0,600' '3 1,-2' 9 @0S @0S | draw --csv
measured "passes" "$steps
1,line,0,0,0,3,0,0,,1,1,7
2,line,3,0,0,0,0,0,,0,2,7
3,line,0,0,0,3,0,0,,1,2,7
4,line,3,0,0,0,0,0,,0,1,8
5,line,0,0,0,3,0,0,,1,1,8
6,line,3,0,0,0,0,0,,0,2,8
7,line,0,0,0,3,0,0,,1,2,8"
printf '%s\n' @07 @0i '0 5,800,0,800,-4,300,4,300' '3 1,-1' 9 start 'clock 3' stop @0P 'go on' start 'clock 2' break start >"$dir/words"
stream_of "$dir/words"
scale= surface=
measures_of "$dir/stream" csv >"$dir/got" 2>"$dir/said"
echo $? >"$dir/status"
measured "a stop, and a break" "$steps
1,hole,5,0,0,5,0,-4,4,0,1,6
2,hole,10,0,0,10,0,-4,4,0,2,6
3,hole,17,0,0,17,0,-4,4,0,1,14
4,hole,22,0,0,22,0,-4,4,0,2,14"

# A slot: two straight cuts and two half circles, the centres at its ends. With an arc in the table its columns stand behind the others.
arcs='centre_x,centre_y,centre_z,radius'
slot() { lines @07 @0i f-1 '0 0,800,0,800,-3,300,0,300' '0 24,600,0,600,0,300,0,300' 'y 32,600,0,0,-8,1,1' '0 -24,600,0,600,0,300,0,300' 'y 32,600,0,0,8,-1,-1' 9 @0S; }
slot | draw --csv
measured "a slot, CSV" "$steps,$arcs,plane,turn
1,cut,0,0,-3,24,0,-3,3,2,1,10,,,,,,
2,arc,24,0,-3,24,16,-3,3,3,1,10,24,8,-3,8,xy,ccw
3,cut,24,16,-3,0,16,-3,3,4,1,10,,,,,,
4,arc,0,16,-3,0,0,-3,3,5,1,10,0,8,-3,8,xy,ccw"
slot | draw --measure 80,80,400
measured "a slot in mm" "steps mm steps mm
no. what from x y z to x y z depth from x y z to x y z depth record pass line centre x y z radius centre x y z radius plane turn
1 cut 0 0 -3 24 0 -3 3 0.000 0.000 -0.008 0.300 0.000 -0.008 0.008 2 1 10 - - - - - - - - - -
2 arc 24 0 -3 24 16 -3 3 0.300 0.000 -0.008 0.300 0.200 -0.008 0.008 3 1 10 24 8 -3 8 0.300 0.100 -0.008 0.100 xy ccw
3 cut 24 16 -3 0 16 -3 3 0.300 0.200 -0.008 0.000 0.200 -0.008 0.008 4 1 10 - - - - - - - - - -
4 arc 0 16 -3 0 0 -3 3 0.000 0.200 -0.008 0.000 0.000 -0.008 0.008 5 1 10 0 8 -3 8 0.000 0.100 -0.008 0.100 xy ccw
0 holes, 2 cuts, 2 arcs, tool left down; end at x 0, y 0, height -3 steps (x 0.000, y 0.000, height -0.008 mm)"
is "columns are aligned with arcs" 1 "$(sed '1d; $d' "$dir/got" | awk '{ print length($0) }' | sort -u | wc -l)"

# With two axes every way is a row, and there are no heights. The root of 34 is 5.83095; with other steps in y no radius is one length.
rounds() { lines @03 @0A5,600,0,600 @0y48,600,0,3,5,1,-1 @0f-1 @0i 'y 2,600,0,-2,0,1,-1' '3 1,-1' 9 @0S; }
rounds | draw --measure
measured "circles of two axes" "no. what from x y to x y record pass line centre x y radius turn
1 line 0 0 5 0 - - 2 - - - -
2 arc 5 0 5 0 - - 3 2 -5 5.831 cw
3 arc 5 0 6 -1 0 1 9 7 0 2 ccw
4 arc 6 -1 7 -2 0 2 9 8 -1 2 ccw
1 line, 3 arcs; end at x 7, y -2 steps"
rounds | draw --csv 10,20,10
measured "circles of two axes, CSV" "number,what,from_x,from_y,from_z,to_x,to_y,to_z,depth,$mm,record,pass,line,$arcs,centre_x_mm,centre_y_mm,centre_z_mm,radius_mm,plane,turn
1,line,0,0,0,5,0,0,,0.000,0.000,0.000,0.500,0.000,0.000,,,,2,,,,,,,,,,
2,arc,5,0,0,5,0,0,,0.500,0.000,0.000,0.500,0.000,0.000,,,,3,2,-5,0,5.831,0.200,-0.250,0.000,,xy,cw
3,arc,5,0,0,6,-1,0,,0.500,0.000,0.000,0.600,-0.050,0.000,,0,1,9,7,0,0,2,0.700,0.000,0.000,,xy,ccw
4,arc,6,-1,0,7,-2,0,,0.600,-0.050,0.000,0.700,-0.100,0.000,,0,2,9,8,-1,0,2,0.800,-0.050,0.000,,xy,ccw"

# Upright: half a circle from the surface is 6 deep in the middle. A full one with its top at the surface is in the plate from the first step
# down, at 2 to the right of the top, to the last step up, as far to the left. In y and z a quarter, and the tool is left down.
lines @07 @0e1 @0f-1 @0y24,600,0,-6,0,1,-1 @0f0 @0y40,600,0,0,5,1,-1 @0e2 @0y8,600,0,0,4,1,-1 | draw --csv
measured "upright circles" "$steps,$arcs,plane,turn
1,arc,0,0,0,12,0,0,6,,,4,6,0,0,6,xz,ccw
2,arc,14,0,0,10,0,0,10,,,6,12,0,-5,5,xz,cw
3,arc,12,2,0,12,4,-4,4,,,8,12,0,-4,4,yz,cw"
# Planes and directions that a program sets, a wait that is answered, and an arc that is broken off.
lines @07 @0i 'e 2' 'f -1' 'e 0' 'y 4,600,0,0,-2,1,1' 9 @0A0,600,0,600,-1,300,0,300 @0S @0e1 @0k @0i '2 89,1' 'y 1,600,0,2,0,-1,1' 9 @0S >"$dir/input"
{ cat "$dir/input"; printf 'Y'; lines @0y8,600,0,-2,0,1,-1; } | draw --csv
measured "a program's own plane" "$steps,$arcs,plane,turn
1,arc,0,0,-1,2,2,-1,1,3,1,9,0,2,-1,2,xy,ccw
2,arc,2,2,0,6,2,0,2,,,17,4,2,0,2,xz,ccw"
printf '%s\n' @03 @0f-1 '@0y 16,600,0,2,0,-1,1' 'clock 4' break 'byte 64' '0y 4,600,0,0,2,-1,-1' >"$dir/words"
stream_of "$dir/words"
measures_of "$dir/stream" csv >"$dir/got" 2>"$dir/said"
echo $? >"$dir/status"
measured "an arc broken off, and one whose line is not known" "$steps,$arcs,plane,turn
1,arc,0,0,0,-2,2,0,,,,3,-2,0,0,2,xy,ccw
2,arc,-2,2,0,-4,0,0,,,,7,,,,,,"

# The A axis: where it stood at both ends. Three holes at one place; a groove that A turned, and a ramp in 3D that turns too. Tool up, a turn
# leaves nothing.
ring() { lines @07 @08 @0i '0 12,800,0,800,0,300,0,400' '0 0,800,0,800,-4,300,0,400' '0 0,800,0,800,4,300,30,400' '3 1,-2' 9 @0S; }
ring | draw --csv
measured "a ring of holes, CSV" "number,what,from_x,from_y,from_z,from_a,to_x,to_y,to_z,to_a,depth,record,pass,line
1,hole,12,0,0,0,12,0,-4,0,4,1,1,9
2,hole,12,0,0,30,12,0,-4,30,4,1,2,9"
ring | draw --measure
measured "a ring of holes" "no. what from x y z a to x y z a depth record pass line
1 hole 12 0 0 0 12 0 -4 0 4 1 1 9
2 hole 12 0 0 30 12 0 -4 30 4 1 2 9
2 holes, 0 cuts; end at x 12, y 0, height 0, a 60 steps"
is "columns are aligned with A" 1 "$(sed '$d' "$dir/got" | awk '{ print length($0) }' | sort -u | wc -l)"
ring | draw --measure 80,80,400,10
measured "a ring of holes in mm and degrees" "steps mm
no. what from x y z a to x y z a depth from x y z a deg to x y z a deg depth record pass line
1 hole 12 0 0 0 12 0 -4 0 4 0.150 0.000 0.000 0.000 0.150 0.000 -0.010 0.000 0.010 1 1 9
2 hole 12 0 0 30 12 0 -4 30 4 0.150 0.000 0.000 3.000 0.150 0.000 -0.010 3.000 0.010 1 2 9
2 holes, 0 cuts; end at x 12, y 0, height 0, a 60 steps (x 0.150, y 0.000, height 0.000 mm, a 6.000 degrees)"
is "columns are aligned with degrees" 1 "$(sed '1d; $d' "$dir/got" | awk '{ print length($0) }' | sort -u | wc -l)"
ring | draw --csv 80
is "no degrees by one number, CSV" "number,what,from_x,from_y,from_z,from_a,to_x,to_y,to_z,to_a,depth,$mm,record,pass,line" "$(head -n 1 "$dir/got")"
lines @07 @08 @0A5,800,0,800,-4,300,50,400 @0z1 @0A10,800,5,800,-4,300,-20,400 @0z0 @0A0,800,0,800,8,300,9,400 | draw --csv 80,80,400,10
measured "turns in the plate" "number,what,from_x,from_y,from_z,from_a,to_x,to_y,to_z,to_a,depth,from_x_mm,from_y_mm,from_z_mm,from_a_deg,to_x_mm,to_y_mm,to_z_mm,to_a_deg,depth_mm,record,pass,line
1,turn,5,0,-4,0,5,0,-4,50,4,0.063,0.000,-0.010,0.000,0.063,0.000,-0.010,5.000,0.010,,,3
2,cut,5,0,-4,50,15,5,-8,30,8,0.063,0.000,-0.010,5.000,0.188,0.063,-0.020,3.000,0.020,,,5"
# A hole deeper than the groove that A turns from there, and an arc beside A.
lines @07 @08 @0A0,800,0,800,-6,300,0,400 @0A0,800,0,800,3,300,40,400 @0y4,600,0,2,0,-1,-1 | draw --measure
measured "a hole, a turn and an arc" "no. what from x y z a to x y z a depth record pass line centre x y z radius plane turn
1 hole 0 0 0 0 0 0 -6 0 6 - - 3 - - - - - -
2 turn 0 0 -3 0 0 0 -3 40 3 - - 4 - - - - - -
3 arc 0 0 -3 40 -2 -2 -3 40 3 - - 5 -2 0 -3 2 xy cw
1 hole, 0 cuts, 1 arc, 1 turn, tool left down; end at x -2, y -2, height -3, a 40 steps"
# A alone: each turn is a row. Passes, and a turn that is stopped is one.
index() { lines @08 @0i '0 20,400' '3 1,-1' 9 @0S @0A-5,300; }
index | draw --measure
measured "A alone" "no. what from a to a record pass line
1 turn 0 20 0 1 6
2 turn 20 40 0 2 6
3 turn 40 35 - - 7
3 turns; end at a 35 steps"
index | draw --measure 1,1,1,2
measured "A alone in degrees" "steps degrees
no. what from a to a from a to a record pass line
1 turn 0 20 0.000 10.000 0 1 6
2 turn 20 40 10.000 20.000 0 2 6
3 turn 40 35 20.000 17.500 - - 7
3 turns; end at a 35 steps (a 17.500 degrees)"
index | draw --measure 80
measured "A alone, without degrees" "steps
no. what from a to a record pass line
1 turn 0 20 0 1 6
2 turn 20 40 0 2 6
3 turn 40 35 - - 7
3 turns; end at a 35 steps"
index | draw --csv
measured "A alone, CSV" "number,what,from_x,from_y,from_z,from_a,to_x,to_y,to_z,to_a,depth,record,pass,line
1,turn,0,0,0,0,0,0,0,20,,0,1,6
2,turn,0,0,0,20,0,0,0,40,,0,2,6
3,turn,0,0,0,40,0,0,0,35,,,,7"
printf '%s\n' @08 '@0A 9,400' 'clock 4' stop 'go on' '@0A 9,400' 'clock 2' break @08 '@0A 3,400' >"$dir/words"
stream_of "$dir/words"
measures_of "$dir/stream" >"$dir/got" 2>"$dir/said"
echo $? >"$dir/status"
measured "A stopped, broken off, and made 0" "no. what from a to a record pass line
1 turn 0 9 - - 2
2 turn 9 11 - - 6
3 turn 11 14 - - 10
3 turns; end at a 14 steps"
# With two axes at first, then A alone: lines and turns.
{ lines @03 @0A4,600,0,600; printf '\376'; lines @08 @0A7,400; } | draw --measure
measured "lines and turns" "no. what from x y a to x y a record pass line
1 line 0 0 0 4 0 0 - - 2
2 turn 4 0 0 4 0 7 - - 4
1 line, 1 turn; end at x 4, y 0, a 7 steps"

lines @07 | draw --measure
measured "nothing" "no. what from x y z to x y z depth record pass line
0 holes, 0 cuts; end at x 0, y 0, height 0 steps"

# Without end: a pass is 13 pulses and a jump, so 100,000 calls are 7,142 passes and 12 calls more, which leave the tool in the plate.
lines @07 @0i '0 5,800,0,800,-4,300,4,300' '3 0,-1' 9 @0S | draw --measure
is "a table without end" "not over after 100,000 clock calls" "$(tail -n 1 "$dir/got")"
is "rows of a table without end" "7142 1" "$(grep -c ' hole ' "$dir/got") $(grep -c ' left down ' "$dir/got")"
