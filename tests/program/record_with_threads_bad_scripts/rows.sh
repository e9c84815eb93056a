# Prints a text this many times.
times() { for ((i = 0; i < $2; i++)); do printf %s "$1"; done; }

echo '---||script fault 1 no-channels/'
echo 'broadcast 65537||script fault 1 bad-capacity/'
echo "$(times 'watch 0/' 65)||script fault 65 too-many-channels/"
echo 'watch 0/actors 65||script fault 2 bad-actors/'
echo 'watch 18446744073709551616||script fault 1 syntax/'
echo 'watch 0/0 1 borrow 1||script fault 2 unknown-channel/'
echo 'watch 0/0 0 borrow x||script fault 2 unknown-name/'
echo "$(times x 257)||script fault 1 too-long/"
