" What vim with ALE shows of a file by `itemtree lsp`: $ITEMTREE is the program. ALE shows problems, and has no outline.
filetype plugin on
packadd ale
let g:ale_linters = {'rust': ['itemtree']}
let g:ale_lint_delay = 0
call ale#linter#Define('rust', {'name': 'itemtree', 'lsp': 'stdio', 'executable': $ITEMTREE, 'command': '%e lsp', 'project_root': {_ -> getcwd()}})

function! s:Problems()
  return join(map(copy(ale#engine#GetLoclist(bufnr(''))), {_, it -> it.lnum . ': ' . it.text}), '; ')
endfunction

function! s:Wait(is_wanted)
  for _ in range(50)
    if a:is_wanted() | return | endif
    sleep 100m
  endfor
endfunction

let s:told = []
function! s:Tell(what)
  call add(s:told, a:what . ': ' . s:Problems())
endfunction

call writefile(['struct Circle {', '    radius: f64,', '}', 'fn area() {', '}', 'const A: u8 = 1;'], 'shapes.rs')
edit shapes.rs
normal Gofn (
call ale#Queue(0)
call s:Wait({-> s:Problems() !=# ''})
call s:Tell('problems')
normal dd
call ale#Queue(0)
call s:Wait({-> s:Problems() ==# ''})
call s:Tell('mended')
enew!
call setline(1, s:told)
%print
qall!
