# Two whole entry lines, and after them as many bytes without an LF as a line may have.
text='ttd-journal 1/broadcast 4/steps/1 0 0 send 0 7 = sent 1/2 0 0 try-recv 1 = value 7/'
letters=$(printf '%256s' '' | tr ' ' x)
echo "$text$letters|${text/journal 1/journal 2}end/|kept 83 bytes/"
