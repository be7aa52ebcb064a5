" Tells what the syntax of scripts makes of files: FILES names a list of them, SHOWN what is written, WHAT is errors or groups.
" For errors: FILE:LINE for each line that shows one, and FILE:0 where the syntax isn't the file's. For groups: each line, and
" below it the groups in their order, each with its text.

" Where the groups of a line change: pairs of a group and a column.
function! s:Changes(line) abort
  let changes = []
  let last = -1
  for column in range(1, col([a:line, '$']) - 1)
    let id = synID(a:line, column, 1)
    if id != last
      call add(changes, [id, column])
      let last = id
    endif
  endfor
  return changes
endfunction

function! s:Groups(line) abort
  let ends = getline(a:line)
  let parts = []
  for [id, column] in reverse(s:Changes(a:line))
    if id != 0
      let name = substitute(synIDattr(id, 'name'), '^raven', '', '')
      call insert(parts, name . '[' . strpart(ends, column - 1) . ']')
    endif
    let ends = strpart(ends, 0, column - 1)
  endfor
  return join(parts)
endfunction

function! s:HasError(line) abort
  for [id, column] in s:Changes(a:line)
    if synIDattr(synIDtrans(id), 'name') ==# 'Error'
      return 1
    endif
  endfor
  return 0
endfunction

let s:shown = []
for s:file in readfile($FILES)
  execute 'edit' fnameescape(s:file)
  if &filetype !=# 'raven' || get(b:, 'current_syntax', '') !=# 'raven'
    call add(s:shown, s:file . ':0')
  endif
  for s:line in range(1, line('$'))
    if $WHAT ==# 'groups'
      call add(s:shown, getline(s:line))
      let s:groups = s:Groups(s:line)
      if !empty(s:groups)
        call add(s:shown, '        ' . s:groups)
      endif
    elseif s:HasError(s:line)
      call add(s:shown, s:file . ':' . s:line)
    endif
  endfor
  bwipeout!
endfor
call writefile(s:shown, $SHOWN)
qall!
