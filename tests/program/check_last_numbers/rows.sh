# Prints a text this many times.
times() { for ((i = 0; i < $2; i++)); do printf %s "$1"; done; }

echo 'ttd-journal 2/broadcast 1/steps/4611686018427387904 0 0 try-recv 1 = empty/end/|ok 1/'
echo 'ttd-journal 2/broadcast 1/steps/4611686018427387903 0 0 try-recv 1 = empty/4611686018427387904 63 0 drop 0 = dropped/end/|ok 2/'
echo 'ttd-journal 2/watch 1/watch 2/steps/4611686018427387904 0 0 borrow 1 = value 1/4611686018427387904 1 1 borrow 1 = value 2/end/|ok 2/'
echo 'ttd-journal 2/broadcast 1/steps/1 63 0 try-recv 1 = empty/end/|ok 1/'
echo 'ttd-journal 2/broadcast 65536/steps/1 0 0 try-recv 1 = empty/end/|ok 1/'
echo 'ttd-journal 2/broadcast 1/steps/1 0 0 drop 4294967295 = unknown/end/|ok 1/'
echo 'ttd-journal 2/broadcast 1/steps/1 0 0 send 0 18446744073709551615 = sent 1/end/|ok 1/'
echo "ttd-journal 2/$(times 'watch 0/' 64)steps/1 0 63 borrow 1 = value 0/end/|ok 1/"
