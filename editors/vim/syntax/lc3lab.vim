" Vim syntax file
" Language: the source language of lc3lab (docs/source-language.md)

if exists("b:current_syntax")
  finish
endif

syntax case ignore
syntax sync fromstart

" Blank, tab, comma and carriage return separate words. Of rules that match at one place the last one counts.
let s:from = '\%(^\|[ \t,\r"]\)\@1<='
let s:to = '\%($\|[ \t,\r;"]\)\@='
function! s:Word(group, pattern)
  execute 'syntax match ' . a:group . ' /' . s:from . '\%(' . a:pattern . '\)' . s:to . '/'
endfunction

let s:number = '0\=x-\=[0-9a-f]\+\|b-\=[01]\+'
let s:operation = 'add\|and\|not\|br\|brn\|brz\|brp\|brnz\|brzp\|brnp\|brnzp\|jmp\|jsrr\|jsr\|ld\|ldi\|lea\|st\|sti\|ldr\|str'
let s:operation .= '\|trap\|ret\|rti\|nop\|getc\|out\|puts\|in\|putsp\|halt'

call s:Word('lc3labBad', '[^ \t,\r;"]\+')
call s:Word('lc3labLabel', '[a-z_][a-z0-9_]*')
execute 'syntax match lc3labDefinition /^[ \t,\r]*\zs[a-z_][a-z0-9_]*:\=' . s:to . '/'
call s:Word('lc3labBad', '\%(r[0-7]\|' . s:number . '\|' . s:operation . '\):')
call s:Word('lc3labNumber', '#\=-\=[0-9]\+\|' . s:number)
call s:Word('lc3labRegister', 'r[0-7]')
call s:Word('lc3labOperation', s:operation)
call s:Word('lc3labDirective', '\.orig\|\.fill\|\.blkw\|\.stringz\|\.end')

syntax match lc3labEscape contained /\\[ntrabfve0"\\]/
syntax match lc3labBadCharacter contained /\\[^ntrabfve0"\\]\|[^\t -~]/
syntax region lc3labString start=/"/ skip=/\\./ end=/"/ oneline contains=lc3labEscape,lc3labBadCharacter
syntax match lc3labBad /"\%([^"\\]\|\\.\)*\\\=$/
syntax match lc3labComment /;.*$/
" All that stands after the line of .END is ignored.
execute 'syntax region lc3labIgnored matchgroup=lc3labDirective start=/' . s:from . '\.end' . s:to . '/ end=/\%$/'

highlight default link lc3labBad Error
highlight default link lc3labBadCharacter Error
highlight default link lc3labLabel Identifier
highlight default link lc3labDefinition Label
highlight default link lc3labNumber Number
highlight default link lc3labRegister Type
highlight default link lc3labOperation Statement
highlight default link lc3labDirective PreProc
highlight default link lc3labString String
highlight default link lc3labEscape SpecialChar
highlight default link lc3labComment Comment
highlight default link lc3labIgnored Comment

let b:current_syntax = "lc3lab"
