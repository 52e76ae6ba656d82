" Settings for Cedar policies.
"
" g:cedar_program         the formatter, 'cedar-fmt' if it isn't set
" g:cedar_format_on_save  1: a buffer is formatted before it is written
if exists('b:did_ftplugin')
  finish
endif
let b:did_ftplugin = 1

setlocal commentstring=//\ %s comments=://
setlocal formatoptions-=t formatoptions+=croql
setlocal expandtab shiftwidth=2 softtabstop=2
setlocal formatexpr=cedar#FormatLines()
command! -buffer -bar CedarFormat call cedar#Format()
augroup cedar_format
  autocmd! * <buffer>
  autocmd BufWritePre <buffer> if get(g:, 'cedar_format_on_save', 0) | call cedar#Format() | endif
augroup END

let b:undo_ftplugin = 'setlocal commentstring< comments< formatoptions< expandtab< shiftwidth< softtabstop< formatexpr<'
let b:undo_ftplugin .= ' | silent! delcommand CedarFormat | execute "autocmd! cedar_format * <buffer>"'
