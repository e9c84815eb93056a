# A run of 1,000,000 steps by actor 0, and one search of it, repeated 400,000 times. All but the first use the index of the last search.
# Without it each would look at every step, and they would take longer than a run may.
echo 'broadcast 1'
yes '0 0 drop 9' | head -n 1000000
printf '%s\n' --- end
yes 'rback actor 1' | head -n 400000
