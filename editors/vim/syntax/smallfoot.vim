" Colours of a smallfoot program, word by word as docs/LANGUAGE.md has them.
if exists("b:current_syntax")
  finish
endif
syntax case match

syntax match smallfootName "\<\a\w*\>"
syntax match smallfootField "\%(->\)\@2<=\a\w*\>"
syntax match smallfootField "\<\a\w*\>\ze\s*:"
syntax match smallfootProcedure "\<\a\w*\>\ze\s*("
syntax match smallfootExistential "\<_\w\+\>"
syntax match smallfootNumber "-\?\<\d\+\>"
syntax match smallfootOperator "|->\|->\|==\|!=\|||\|[=*:]"
syntax match smallfootMark "[()[\]{},;]"

syntax keyword smallfootCommand dispose else if new then when while with
syntax keyword smallfootDeclaration local resource
syntax keyword smallfootConstant NULL nil true
syntax keyword smallfootPredicate dll emp list ls lseg tree

syntax region smallfootComment start="/\*" end="\*/"
syntax sync ccomment smallfootComment

highlight default link smallfootField Identifier
highlight default link smallfootProcedure Function
highlight default link smallfootExistential Special
highlight default link smallfootNumber Number
highlight default link smallfootOperator Operator
highlight default link smallfootMark Delimiter
highlight default link smallfootCommand Statement
highlight default link smallfootDeclaration StorageClass
highlight default link smallfootConstant Constant
highlight default link smallfootPredicate Type
highlight default link smallfootComment Comment

let b:current_syntax = "smallfoot"
