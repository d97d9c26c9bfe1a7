# Part of run: arguments, the length of the input, and what happens if something fails.

one() { # the shortest input with a movement
    printf '@01\r@0A3,600\r'
}

for word in 0 0.0009 1000001 -5 1e3 ten '' ' 5' .5 5. 1.2.3 5,5 5,,5 5,5,5,5,5 5,5,5,0 5,5,5, 5,5,,5 ,5,5 00000000000000001 99999999999999999999; do
    one | draw "$word"
    refused "the scale \"$word\"" 2 ''
done
for word in '' 1.5 x -- +5 123456789 ' 1'; do
    one | draw --surface "$word"
    refused "the surface \"$word\"" 2 'height of the surface'
done
one | draw 5 5
refused "two scales" 2 'more than one'
one | draw --what
refused "an option that is none" 2 'no option --what'
one | draw --surface
refused "a surface without a value" 2 'missing'
one | draw --measure --csv
refused "two forms" 2 'exclude'
one | draw --csv --numbers
refused "a table with the picture's options" 2 'for the picture'
draw --help </dev/null
is "--help" "0 usage: plate" "$(cat "$dir/status") $(sed -n '1s/ \[.*//p' "$dir/got")"

head -c 1048577 /dev/zero | draw
refused "more than 1048576 bytes" 1 '1048576'
draw </dev/null
drawn "no input" '>no movement<' 'size in x: 0 steps, in y: 0 steps<' '!>movement<'
one | draw
drawn "one movement" '!no movement' 'size in x: 3 steps, in y: 0 steps<'
printf '@01\r@0A1,600\r' | draw
drawn "one step" '!no movement' 'size in x: 1 step, in y: 0 steps<'

# A program calls that prints nothing, or stops in the middle, or is not there, gives no picture; nor does a full disk.
one | CALLS=$(command -v true) draw
refused "calls that prints nothing" 1 'not whole'
cat >"$dir/half" <<END
#!/bin/sh
"$CALLS" | head -n 12
END
chmod +x "$dir/half"
one | CALLS=$dir/half draw
refused "calls that stops in the middle" 1 'not whole'
one | CALLS=$dir/none draw
is "calls that is not there" "1 1" "$(cat "$dir/status") $(grep -c '^plate: .*cannot be run' "$dir/said")"
one | TMPDIR=$dir/none draw
refused "no temporary folder" 1 'temporary folder'
if [ -w /dev/full ]; then
    one | "$root/tools/plate" >/dev/full 2>"$dir/said"
    is "a full disk" "1 plate: the picture cannot be written" "$? $(cat "$dir/said")"
fi
