" Vim compiler file: verac
"
" Copy or link it to ~/.vim/compiler/verac.vim. Then `:compiler verac` and `:make` analyse the file at hand, and `:copen` lists
" alarms and refusals; what is shown of an alarm, and its example, belong to its entry.

if exists("current_compiler")
  finish
endif
let current_compiler = "verac"

let s:cpo_save = &cpo
set cpo&vim

CompilerSet makeprg=verac\ analyze\ %:S

" Refusals with a place and of a whole file, alarms with the lines below them, and the last line of a report.
CompilerSet errorformat=
      \%E%f:%l:%c:\ refused:\ %m,
      \%E%f:\ refused:\ %m,
      \%W%f:%l:%c:\ %m,
      \%C\ \ %m,
      \%-Galarms\ %.%#,
      \%-Gno\ alarm

let &cpo = s:cpo_save
unlet s:cpo_save
