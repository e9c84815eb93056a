# Searches for actors 0 to 999 in turn, of whom actor 0 made step 1 and actor 1 steps 2 and 3, and once more. No more than 256 indexes are kept.
printf '%s\n' 'broadcast 1' 'actors 2' '0 0 send 0 5' '1 0 send 0 6' '1 0 send 0 7' ---
seq -f 'rback actor %.0f' 0 999
echo end
seq -f 'rback actor %.0f' 0 999
