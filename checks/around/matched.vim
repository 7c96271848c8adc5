" Reads the lines of $LINES by the compiler file, and writes what the quickfix list has of them to $FOUND.
compiler verac
cgetfile $LINES
let s:found = []
for s:entry in filter(getqflist(), 'v:val.valid')
  call add(s:found, join([s:entry.type, bufname(s:entry.bufnr), s:entry.lnum, s:entry.col, substitute(s:entry.text, "\n", "; ", "g")], '|'))
endfor
call writefile(s:found, $FOUND)
quitall!
