# The small journal in each version, cut after each of its bytes from the line `steps` on: its whole entry lines, and how many bytes its
# whole lines have.
for version in 1 2; do
  text="ttd-journal $version/broadcast 4/steps/1 0 0 send 0 7 = sent 1/2 0 0 try-recv 1 = value 7/3 0 0 drop 0 = dropped/end/"
  for ((length = 32; length <= ${#text}; length++)); do
    if [ "$length" -lt 56 ]; then
      entries='' kept=32
    elif [ "$length" -lt 83 ]; then
      entries='1 0 0 send 0 7 = sent 1/' kept=56
    elif [ "$length" -lt 106 ]; then
      entries='1 0 0 send 0 7 = sent 1/2 0 0 try-recv 1 = value 7/' kept=83
    else
      entries='1 0 0 send 0 7 = sent 1/2 0 0 try-recv 1 = value 7/3 0 0 drop 0 = dropped/' kept=106
    fi
    [ "$length" -lt 110 ] || kept=110
    echo "${text:0:length}|ttd-journal 2/broadcast 4/steps/${entries}end/|kept $kept bytes/"
  done
done
