# Commands of 268,435,457 bytes: one, comments, of which the last is cut off, and one more, whose LF is too much.
echo back
yes "$(printf '%255s' '' | tr ' ' '#')" | head -c $((268435457 - 12))
printf '\nstart\n'
