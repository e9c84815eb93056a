# A script with its mark, and lines after that: 268,435,457 bytes.
printf 'broadcast 1\n---\n'
yes | head -c $((268435457 - 16))
