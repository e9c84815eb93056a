# All the handles that a channel makes, most of them weak senders. An upgrade is refused before its only sender is dropped, and after that.
echo 'broadcast 1'
echo '0 0 downgrade 0'
yes '0 0 clone-weak 2' | head -n 65533
echo '0 0 upgrade 2'
echo '0 0 drop 0'
echo '0 0 upgrade 2'
echo ---
printf '%s\n' step back step back step back step 'rback reply no-sender'
