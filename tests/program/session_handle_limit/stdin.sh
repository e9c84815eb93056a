# All the handles that a channel makes, two that it doesn't, and a drop in between.
echo 'broadcast 1'
yes '0 0 clone-sender 0' | head -n 65535
echo '0 0 drop 2'
echo '0 0 clone-sender 0'
echo ---
printf '%s\n' state 'goto 0' end state 'goto 65534' step forward step forward step forward step
