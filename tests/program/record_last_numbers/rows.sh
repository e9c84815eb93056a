# Prints a text this many times.
times() { for ((i = 0; i < $2; i++)); do printf %s "$1"; done; }

echo "$(times 'watch 0/' 64)0 63 borrow 1|ttd-journal 2/$(times 'watch 0/' 64)steps/1 0 63 borrow 1 = value 0/end/"
echo 'watch 0/actors 64/63 0 borrow 1|ttd-journal 2/watch 0/steps/1 63 0 borrow 1 = value 0/end/'
echo 'broadcast 65536/0 0 try-recv 1|ttd-journal 2/broadcast 65536/steps/1 0 0 try-recv 1 = empty/end/'
echo 'broadcast 1/0 0 drop 4294967295|ttd-journal 2/broadcast 1/steps/1 0 0 drop 4294967295 = unknown/end/'
echo 'broadcast 1/0 0 send 0 18446744073709551615|ttd-journal 2/broadcast 1/steps/1 0 0 send 0 18446744073709551615 = sent 1/end/'
echo "watch 0/$(times '#' 256)/0 0 borrow 1|ttd-journal 2/watch 0/steps/1 0 0 borrow 1 = value 0/end/"
