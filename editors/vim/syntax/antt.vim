" Definitions and proofs (specs/, proofs/), and what stands in a clause's braces.
if exists("b:current_syntax")
  finish
endif

syntax match anttComment "--.*$"
syntax region anttText start=+"+ skip=+\\"+ end=+"+
syntax match anttNumber "\<\d\+\>"
syntax keyword anttWord use as pub mod module where abbrev unfoldable unfolding data record let in if then else λ
syntax keyword anttTactic search grind omega simp cc rw ap subst refl sym arith at by
syntax keyword anttType Type ℕ Bool List Option Result Unit
syntax match anttHole "?"
syntax match anttSign "[→×≡≤<↔⊎∷∙≢¬]\|++\|\^"

highlight default link anttComment Comment
highlight default link anttText String
highlight default link anttNumber Number
highlight default link anttWord Keyword
highlight default link anttTactic Function
highlight default link anttType Type
highlight default link anttHole Todo
highlight default link anttSign Operator

let b:current_syntax = "antt"
