" A file *.asm whose first line that is neither empty nor a comment has .ORIG is a source of lc3lab.

function! s:IsSource() abort
  for line in getline(1, 200)
    if line !~# '^[ \t,\r]*\%(;.*\)\=$'
      return line =~? '^[ \t,\r]*\.orig\%($\|[ \t,\r;]\)'
    endif
  endfor
  return 0
endfunction

autocmd BufNewFile,BufRead *.asm if s:IsSource() | set filetype=lc3lab | setlocal commentstring=;%s | endif
