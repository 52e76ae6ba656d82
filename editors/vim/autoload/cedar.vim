" Formats Cedar policies by the program g:cedar_program.

" The formatted lines. Of a refused text there are none, and what is wrong is shown.
function! s:Formatted(lines) abort
  let said = tempname()
  let program = get(g:, 'cedar_program', 'cedar-fmt')
  let after = systemlist(shellescape(program) . ' format 2> ' . shellescape(said), a:lines)
  let refused = v:shell_error
  if refused
    echohl ErrorMsg | echomsg join(readfile(said), ' ') | echohl None
  endif
  call delete(said)
  return refused ? [] : after
endfunction

" Formats the buffer. A refused text leaves it as it was.
function! cedar#Format() abort
  let before = getline(1, '$')
  let after = s:Formatted(before)
  if after !=# [] && after !=# before
    let view = winsaveview()
    call setline(1, after)
    silent! execute len(after) + 1 . ',$delete _'
    call winrestview(view)
  endif
endfunction

" Formats the lines of gq. A refused text leaves them as they were.
function! cedar#FormatLines() abort
  if mode() =~# '^[iR]'
    return 1
  endif
  let last = v:lnum + v:count - 1
  let after = s:Formatted(getline(v:lnum, last))
  if after !=# []
    call append(last, after)
    silent execute v:lnum . ',' . last . 'delete _'
  endif
  return 0
endfunction
