" The compiler awk-check: `:compiler awk-check` and `:make` put what it tells of a program into the quickfix list.
" Copy this file to ~/.vim/compiler/. In a shell script or a makefile `:make` checks the programs of awk in it.

if exists('current_compiler')
  finish
endif
let current_compiler = 'awk-check'

if exists(':CompilerSet') != 2
  command -nargs=* CompilerSet setlocal <args>
endif

if &filetype ==# 'sh' || &filetype ==# 'make'
  CompilerSet makeprg=awk-check\ --shell\ %:S
else
  CompilerSet makeprg=awk-check\ --files\ %:S
endif

" The lines behind a finding, which begin with blanks, belong to it.
CompilerSet errorformat=%f:%l:%c:\ %trror:\ %m,%f:%l:%c:\ %tarning:\ %m,%f:%l:%c:\ %tote:\ %m,
      \%f:\ %trror:\ %m,%f:\ %tarning:\ %m,%-G\ \ \ \ %.%#
