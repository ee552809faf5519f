" Vim syntax file of SR as sr reads it. Made by bench/editors.
if exists("b:current_syntax")
  finish
endif
syntax case match

syntax keyword sr_structure body end final global import op optype proc procedure process resource returns sem
syntax keyword sr_declaration const res type val var
syntax keyword sr_type bool cap char enum int rec string vm
syntax keyword sr_statement af co do exit fa fi forward if in next ni oc od receive reply return skip stop
syntax keyword sr_invocation by call create destroy downto else on send st to
syntax keyword sr_operator and mod not or xor
syntax keyword sr_constant false noop null true
syntax keyword sr_left_out extend external file ptr real ref separate union
syntax keyword sr_predefined write writes read P V EOF abs min max low high lb ub length pred succ myresource myvm
syntax match sr_number /\<[0-9]\+\>/
syntax match sr_escape contained /\\[ntr0\\'"]/
syntax region sr_string start=/"/ skip=/\\./ end=/"/ oneline contains=sr_escape
syntax match sr_character /'\(\\.\|[^\\']\)'/ contains=sr_escape
syntax match sr_sign /:=:\|:=\|->\|\[\]\|\/\/\|--\|++\|||\|!=\|\~=\|<=\|>=/
syntax match sr_comment /#.*$/ contains=@Spell
syntax region sr_comment start=/\/\*/ end=/\*\// contains=@Spell

highlight default link sr_structure Structure
highlight default link sr_declaration StorageClass
highlight default link sr_type Type
highlight default link sr_statement Statement
highlight default link sr_invocation Keyword
highlight default link sr_operator Operator
highlight default link sr_constant Constant
highlight default link sr_left_out Error
highlight default link sr_predefined Function
highlight default link sr_number Number
highlight default link sr_escape SpecialChar
highlight default link sr_string String
highlight default link sr_character Character
highlight default link sr_sign Operator
highlight default link sr_comment Comment

let b:current_syntax = "sr"
