# Prints a line of this many bytes.
line() { printf "%$1s" '' | tr ' ' '#'; }

echo "broadcast 2/$(line 256)/---/end/|place 0 of 0/"
echo "broadcast 2/---/$(line 256)/---/end/|bad command/place 0 of 0/"
echo "broadcast 2/---/$(line 257)/---/end/|bad command/bad command/place 0 of 0/"
