# Prints a line of this many bytes.
line() { printf "%$1s" '' | tr ' ' '#'; }

for length in 257 1000; do
  echo "broadcast 2/$(line "$length")/---/end/|script fault 2 too-long/"
done
