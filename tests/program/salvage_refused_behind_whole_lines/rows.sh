# Two whole entry lines, and after them one byte more without an LF than a line may have. Then the second line with another reply, and a
# third one cut off. Then a byte after the line `end`.
text='ttd-journal 1/broadcast 4/steps/1 0 0 send 0 7 = sent 1/2 0 0 try-recv 1 = value 7/'
letters=$(printf '%257s' '' | tr ' ' x)
echo "$text$letters||journal fault limit-exceeded 6/"
echo "${text/value 7/value 8}3 0 0 d||journal fault wrong-reply 5/"
echo "${text}end/x||journal fault malformed 7/"
