# A run of 1,000,000 steps by actor 0, and three searches of it in turn, 100,000 times. All but the first three use indexes that are kept.
# If a search for one condition dropped the index of another, each would look at every step, and they would take longer than a run may.
echo 'broadcast 1'
yes '0 0 drop 9' | head -n 1000000
printf '%s\n' --- end
yes 'rback actor 1
rback channel 1
rback reply lagged' | head -n 300000
