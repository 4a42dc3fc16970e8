" Sessions of palm.
if exists("b:current_syntax")
  finish
endif

syntax case match
syntax match palmComment /^\s*#.*$/
syntax match palmLate /\%(\S\s*\)\@<=#.*$/
syntax match palmForm /^\s*\%(palm\|var\|add\|relax\|enforce\|retract\|domains\|domain\|list\|log\|why\|conflict\|minimal\|cert\|pause\|resume\|step\|solve\|prove\|minimize\|prefer\|preferred\|guide\|order\|drop\|quit\)\>/ nextgroup=palmName,palmWord skipwhite
syntax match palmName contained /\h\w*/
syntax match palmWord contained /\<\%(conflict\|dbt\|repair\|guide\|order\|none\)\>/ nextgroup=palmSetting skipwhite
syntax match palmSetting /\<\%(tabu\|budget\)\ze\s\+\d/
syntax match palmSetting /\<in\>/
syntax match palmSetting /\%(^\s*prefer\s\+\h\w*\s\+\)\@<=none\>/
syntax match palmKind /:\s*\zs\%(sum\|table\|element\|count\|differ\)\>/
syntax match palmNumber /\<\d\+\>/
syntax match palmSign /\.\.\|!=\|<=\|>=\|[=<>+*-]/
syntax match palmWrong /==\|<>\|!\ze[^=]\|[/%&|;]/

highlight default link palmComment Comment
highlight default link palmLate Error
highlight default link palmForm Statement
highlight default link palmWord Keyword
highlight default link palmSetting Keyword
highlight default link palmName Identifier
highlight default link palmKind Type
highlight default link palmNumber Number
highlight default link palmSign Operator
highlight default link palmWrong Error

let b:current_syntax = "palm"
