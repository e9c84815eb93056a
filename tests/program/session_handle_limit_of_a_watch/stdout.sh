# The channel's state at the end: each number but the dropped 2 has a handle.
state() {
  printf '%s\n' 'channel 0 watch version 0 value 7 made 65536 open' 'senders 0' 'receiver 1 mark 0 seen'
  seq -f 'receiver %g mark 0 seen' 3 65535
}

echo 'place 65537 of 65537'
state
printf '%s\n' 'place 0 of 65537' 'place 65537 of 65537' 'place 65537 of 65537'
state
cat <<'END'
place 65534 of 65537
#65534 65534 0 0 clone-receiver 1 = new 65535
place 65535 of 65537
#65535 65535 0 0 clone-receiver 1 = too-many-handles
place 65536 of 65537
#65536 65536 0 0 drop 2 = dropped
place 65537 of 65537
#65537 65537 0 0 clone-receiver 1 = too-many-handles
END
