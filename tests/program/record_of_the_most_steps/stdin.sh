echo 'broadcast 1'
yes '0 0 drop 9' | head -n 1048576
