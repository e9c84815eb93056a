printf '%s\n' 'ttd-journal 2' 'broadcast 1' steps
seq -f '%.0f 0 0 drop 9 = unknown' 1048576
echo end
