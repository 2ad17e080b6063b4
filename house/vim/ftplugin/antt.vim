" A name of .antt may have hyphens, primes and letters of other alphabets, so that CTRL-] finds its tag.
setlocal comments=:-- commentstring=--\ %s iskeyword=@,48-57,_,-,',192-255 tags=./tags;,tags shiftwidth=2 expandtab textwidth=160
