" The definitions and proofs of Rattle's crates. Put house/vim on Vim's 'runtimepath'.
if exists("b:current_syntax")
  finish
endif
syntax iskeyword @,48-57,_,-,',192-255
syntax keyword anttImport use as mod module
syntax keyword anttModifier pub abbrev unfoldable opaque
syntax keyword anttKeyword record data where let in do if then else elim match with
syntax keyword anttSort Type Unit
syntax keyword anttTactic search omega grind cc rw simp assumption hlevel refl absurd tt
syntax match anttNumber "\<\d\+\>"
syntax match anttSign "[→←↦λ×⊎≡≢≤<∷¬⊥∙↔]"
syntax match anttConstructor "\<\u[A-Za-z0-9_'-]*\>"
syntax match anttDefined "\%(^\s*\%(\%(pub\|abbrev\|unfoldable\|opaque\)\s\+\)*\)\@<=[^][ \t(){}:,;.=]\+\ze : "
syntax match anttComment "--.*$" contains=@Spell
syntax region anttString start=+"+ skip=+\\"+ end=+"+ oneline
highlight default link anttImport Include
highlight default link anttModifier StorageClass
highlight default link anttKeyword Keyword
highlight default link anttSort Type
highlight default link anttTactic Function
highlight default link anttNumber Number
highlight default link anttSign Operator
highlight default link anttConstructor Identifier
highlight default link anttDefined Function
highlight default link anttComment Comment
highlight default link anttString String
let b:current_syntax = "antt"
