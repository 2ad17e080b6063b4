" As Rust, with names of .antt in its clauses.
setlocal comments=:///,://!,:// commentstring=//\ %s iskeyword=@,48-57,_,192-255 tags=./tags;,tags shiftwidth=4 expandtab textwidth=160
