" Rattle: Rust, with the clauses of contracts.
if exists("b:current_syntax")
  finish
endif

runtime! syntax/rust.vim
unlet! b:current_syntax
syntax include @antt syntax/antt.vim

syntax keyword rattleWord requires ensures ghost
syntax region rattleClause matchgroup=Delimiter contains=@antt,rattleClause
  \ start="\%(\<\%(requires\|ensures\)\>\*\?\s*\%(\w\+\s*\)\?\)\@<={" end="}"
syntax match rattleGhostUse "^\s*ghost use .*;$" contains=rattleWord,@antt

highlight default link rattleWord Keyword

let b:current_syntax = "rattle"
