" Indentation for the language Hermes: one level for each open bracket, and one for the further lines of a statement.
if exists('b:did_indent')
  finish
endif
let b:did_indent = 1

setlocal indentexpr=HermesIndent(v:lnum)
setlocal indentkeys=0{,0},0),0],!^F,o,O,e
setlocal nolisp
setlocal nosmartindent

let b:undo_indent = 'setlocal indentexpr< indentkeys< lisp< smartindent<'

if exists('*HermesIndent')
  finish
endif

" The code of a line: without strings, comments and blanks at its end.
function s:Code(number) abort
  let l:code = substitute(getline(a:number), '"\%(\\.\|[^"\\]\)*"', '""', 'g')
  return substitute(substitute(l:code, '--.*$', '', ''), '\s*$', '', '')
endfunction

" The number of the last line with code above this one, or 0.
function s:Above(number) abort
  let l:number = prevnonblank(a:number - 1)
  while l:number > 0 && s:Code(l:number) ==# ''
    let l:number = prevnonblank(l:number - 1)
  endwhile
  return l:number
endfunction

" Whether a line goes on in the next one: it ends no statement, opens nothing, and is no item of a list.
function s:GoesOn(number) abort
  return a:number > 0 && s:Code(a:number) !~# '[;{}(\[]$' && !s:IsItem(a:number)
endfunction

" Whether a line is an item of a list that was opened at the end of a line above.
function s:IsItem(number) abort
  let l:above = s:Above(a:number)
  let l:code = s:Code(l:above)
  return l:code =~# '\%([([]\|\<\%(record\|variant\|enum\|inport of \w\+\)\s*{\)$' || (l:code =~# ',$' && s:IsItem(l:above))
endfunction

function HermesIndent(number) abort
  let l:above = s:Above(a:number)
  if l:above == 0
    return 0
  endif
  let l:start = l:above
  while s:GoesOn(s:Above(l:start))
    let l:start = s:Above(l:start)
  endwhile
  let l:indent = indent(l:start)
  if s:GoesOn(l:above)
    let l:indent += shiftwidth()
  endif
  if s:Code(l:above) =~# '[{(\[]$'
    let l:indent += shiftwidth()
  endif
  if s:Code(a:number) =~# '^\s*[})\]]'
    let l:indent -= shiftwidth()
  endif
  return max([l:indent, 0])
endfunction
