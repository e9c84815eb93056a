# The small journal in each version, cut after each of its bytes up to the last one before the LF of `steps`.
for version in 1 2; do
  text="ttd-journal $version/broadcast 4/steps/1 0 0 send 0 7 = sent 1/2 0 0 try-recv 1 = value 7/3 0 0 drop 0 = dropped/end/"
  for ((length = 0; length < 32; length++)); do
    echo "${text:0:length}||journal fault truncated/"
  done
done
