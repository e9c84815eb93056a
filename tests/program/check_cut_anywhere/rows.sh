text='ttd-journal 1/broadcast 4/steps/1 0 0 send 0 7 = sent 1/2 0 0 try-recv 1 = value 7/3 0 0 drop 0 = dropped/end/'
for ((length = 0; length < ${#text}; length++)); do
  echo "${text:0:length}|journal fault truncated/"
done
echo "${text}x|journal fault malformed 8/"
# A first line that is cut off, with as many bytes as a line may have, and with one more.
letters=$(printf '%256s' '' | tr ' ' x)
echo "$letters|journal fault truncated/"
echo "${letters}x|journal fault limit-exceeded 1/"
