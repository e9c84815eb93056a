# The channel's state at the end: each number but the dropped 2 has a handle.
state() {
  printf '%s\n' 'channel 0 broadcast capacity 1 sent 0 queued 0 made 65536 open' window
  echo "senders 0 $(seq -s ' ' 3 65535)"
  echo 'receiver 1 position 0 unread 0 lag 0'
}

echo 'place 65537 of 65537'
state
printf '%s\n' 'place 0 of 65537' 'place 65537 of 65537' 'place 65537 of 65537'
state
cat <<'END'
place 65534 of 65537
#65534 65534 0 0 clone-sender 0 = new 65535
place 65535 of 65537
#65535 65535 0 0 clone-sender 0 = too-many-handles
place 65536 of 65537
#65536 65536 0 0 drop 2 = dropped
place 65537 of 65537
#65537 65537 0 0 clone-sender 0 = too-many-handles
END
