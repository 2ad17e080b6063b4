" Rattle: Rust, with clauses and ghost members. Put house/vim on Vim's 'runtimepath'.
if exists("b:current_syntax")
  finish
endif
runtime! syntax/rust.vim
unlet! b:current_syntax
syntax keyword rattleClause requires ensures invariant decreases
syntax keyword rattleGhost ghost
syntax match rattleSign "[→←↦λ×⊎≡≢≤∷¬⊥∙↔ℕℤ]"
syntax cluster rustIdentifiers add=rattleClause,rattleGhost,rattleSign
highlight default link rattleClause PreProc
highlight default link rattleGhost StorageClass
highlight default link rattleSign Operator
let b:current_syntax = "rattle"
