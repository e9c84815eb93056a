# Prints a text this many times.
times() { for ((i = 0; i < $2; i++)); do printf %s "$1"; done; }

# Prints the row of a script that is refused: a text, and then another one this many times.
row() { echo "$1$(times "$2" "$3")||script fault $4/"; }

row '' x 257 '1 too-long'
row '' x 256 '1 syntax'
row '#' x 256 '1 too-long'
row '#' x 255 '2 no-channels'
row 'watch 0/0 0 send 0 ' 1 245 '2 bad-arguments'
row 'watch 0/0 0 send x ' 1 245 '2 bad-arguments'
row 'watch 0/0 0 send 0 ' 1 246 '2 too-long'
row '' 'watch 0/' 65 '65 too-many-channels'
row 'broadcast 0/' 'watch 0/' 65 '1 bad-capacity'
echo "$(times 'watch 0/' 64)broadcast 0/||script fault 65 bad-capacity/"
