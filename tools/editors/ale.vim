" vim -N -u ale.vim f.yaml: opens the file in vim with ALE under the server of $SERVER, edits it, and writes to $OUT what is shown.
set nocompatible hidden encoding=utf-8
set runtimepath+=/usr/share/vim-ale
let g:ale_linters_explicit = 1
let g:ale_linters = {'yaml': ['zutkrad']}
filetype plugin on
runtime! plugin/ale.vim
call ale#linter#Define('yaml', {
\  'name': 'zutkrad',
\  'lsp': 'stdio',
\  'executable': split($SERVER)[0],
\  'command': $SERVER,
\  'language': 'yaml',
\  'project_root': {buffer -> getcwd()},
\  'initialization_options': {'zutkrad': {'config': '{extends: default, rules: {truthy: disable}}'}},
\})

function! Shown()
  let l:lines = []
  for l:problem in ale#engine#GetLoclist(bufnr(''))
    call add(l:lines, printf('  %d:%d-%s:%s %s %s: %s', l:problem.lnum, l:problem.col, get(l:problem, 'end_lnum', ''),
    \  get(l:problem, 'end_col', ''), l:problem.type, get(l:problem, 'code', ''), l:problem.text))
  endfor
  return l:lines
endfunction

" Waits until other problems are shown than before, and tells them.
function! Step(name, before)
  let l:rounds = 0
  while Shown() == a:before && l:rounds < 1000
    sleep 20m
    let l:rounds += 1
  endwhile
  call writefile([a:name] + Shown(), $OUT, 'a')
endfunction

function! Edit(name, line, lines)
  let l:before = Shown()
  call setline(a:line, a:lines)
  call ale#Queue(0)
  call Step(a:name, l:before)
endfunction

function! Run(...)
  set filetype=yaml
  call ale#Queue(0, 'lint_file')
  call Step('opened', [])
  call Edit('typed', 2, 'a: 1 😀 é ')
  let &undolevels = &undolevels " what follows is undone by itself
  call Edit('two lines', 2, ['x:  yes', '😀: "y'])
  let l:before = Shown()
  silent undo
  call ale#Queue(0)
  call Step('undone', l:before)
  qa!
endfunction
autocmd VimEnter * call Run()
