" Vim syntax file: tasks and programs of SafeMerge
if exists("b:current_syntax")
  finish
endif

syntax case match
syntax keyword safemergeDeclaration var array output assume
syntax keyword safemergeSection shared base variant_a variant_b candidate
syntax keyword safemergeConditional if else
syntax keyword safemergeRepeat while
syntax keyword safemergeStatement skip
syntax keyword safemergeBoolean true false
syntax match safemergeHole "?\s*[0-9]\+"
syntax match safemergeNumber "\<[0-9]\+\>"
syntax match safemergeOperator "[-+*!<>=]\|&&\|||"
syntax match safemergeError "[/%]"
syntax match safemergeComment "#.*$" contains=safemergeTodo,@Spell
syntax keyword safemergeTodo TODO FIXME contained

highlight default link safemergeDeclaration StorageClass
highlight default link safemergeSection Structure
highlight default link safemergeConditional Conditional
highlight default link safemergeRepeat Repeat
highlight default link safemergeStatement Statement
highlight default link safemergeBoolean Boolean
highlight default link safemergeHole Special
highlight default link safemergeNumber Number
highlight default link safemergeOperator Operator
highlight default link safemergeError Error
highlight default link safemergeComment Comment
highlight default link safemergeTodo Todo

let b:current_syntax = "safemerge"
