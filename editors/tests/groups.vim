" Writes for each file of $HERMES_FILES, one name a line, what Vim makes of it into $HERMES_GROUPS: a line 'file NAME', a line
" with the groups of the bytes for each line of the file, and a line 'indent NUMBER' for each line that Vim would indent otherwise.
set nocompatible nomore
execute 'set runtimepath^=' . fnameescape($HERMES_VIM)
filetype plugin indent on
syntax on
let s:out = []
for s:name in readfile($HERMES_FILES)
  execute 'edit' fnameescape(s:name)
  call add(s:out, 'file ' . s:name . ' ' . &filetype . ' ' . &commentstring)
  for s:number in range(1, line('$'))
    let s:groups = map(range(1, max([col([s:number, '$']) - 1, 0])), {_, column -> synIDattr(synID(s:number, column, 1), 'name')})
    call add(s:out, join(map(s:groups, {_, group -> group ==# '' ? '-' : group}), ' '))
  endfor
  let s:before = getline(1, '$')
  silent normal! gg=G
  for s:number in range(1, line('$'))
    if getline(s:number) !=# s:before[s:number - 1]
      call add(s:out, 'indent ' . s:number)
    endif
  endfor
  silent edit!
endfor
call writefile(s:out, $HERMES_GROUPS)
qall!
