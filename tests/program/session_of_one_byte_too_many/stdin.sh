# A script of 268,435,457 bytes with its mark and a command: comments, of which the last is cut off.
echo 'broadcast 1'
yes "$(printf '%255s' '' | tr ' ' '#')" | head -c $((268435457 - 12 - 9))
printf '\n---\nend\n'
