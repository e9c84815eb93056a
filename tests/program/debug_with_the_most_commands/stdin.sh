# Commands of 268,435,456 bytes: comments, of which the last is cut off, and a command.
yes "$(printf '%255s' '' | tr ' ' '#')" | head -c $((268435456 - 7))
printf '\nstart\n'
