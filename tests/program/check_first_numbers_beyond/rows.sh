# Prints a text this many times.
times() { for ((i = 0; i < $2; i++)); do printf %s "$1"; done; }

# Prints the row of a journal with this line as its fourth, an entry line.
row() { echo "ttd-journal 2/broadcast 1/steps/$1/end/|journal fault $2 4/"; }

row '4611686018427387905 0 0 try-recv 1 = empty' limit-exceeded
row '18446744073709551615 0 0 try-recv 1 = empty' limit-exceeded
row '18446744073709551616 0 0 try-recv 1 = empty' malformed
row '1 64 0 try-recv 1 = empty' limit-exceeded
row '1 0 1 try-recv 1 = empty' malformed
row '1 0 0 drop 4294967296 = unknown' limit-exceeded
row '1 0 0 send 0 18446744073709551616 = sent 1' malformed
row '1 0 0 subscribe 0 = new 4294967295' wrong-reply
row '1 0 0 subscribe 0 = new 4294967296' limit-exceeded
row "$(times x 256)" malformed
row "$(times x 257)" limit-exceeded
echo 'ttd-journal 2/broadcast 65537/|journal fault limit-exceeded 2/'
echo "ttd-journal 2/$(times 'watch 0/' 65)|journal fault limit-exceeded 66/"
echo "ttd-journal 2/$(times 'watch 0/' 64)broadcast 0/|journal fault limit-exceeded 66/"
echo "ttd-journal 2/$(times 'watch 0/' 64)steps/1 0 64 borrow 1 = value 0/|journal fault malformed 67/"
echo "$(times x 256)/|journal fault malformed 1/"
echo "$(times x 257)/|journal fault limit-exceeded 1/"
echo 'ttd-journal 2/broadcast 1/steps/4611686018427387904 0 0 try-recv 1 = empty/4611686018427387904 1 0 try-recv 1 = empty/|journal fault wrong-order 5/'
echo 'ttd-journal 2/watch 1/watch 2/steps/4611686018427387904 0 0 borrow 1 = value 1/4611686018427387904 0 1 borrow 1 = value 2/|journal fault wrong-order 6/'
