" Vim syntax for programs with concurrent revisions (*.rev).
if exists('b:current_syntax')
  finish
endif

syntax match reviseBadByte /\S/
syntax match reviseName /\<[A-Za-z_][A-Za-z0-9_]*\>/
syntax match reviseOperator /==\|!=\|<=\|>=\|[<>=!+\-*/%]\|&&\|||/
syntax match revisePunctuation /[(){}[\],;:]/
syntax match reviseNumber /\<[0-9]\+\>/
syntax match reviseBadNumber /\<[0-9]\+[A-Za-z_][A-Za-z0-9_]*/
syntax keyword reviseDeclaration fun merge versioned cumulative by proc main let
syntax keyword reviseType int bool rev
syntax keyword reviseControl if else while return print assert
syntax keyword reviseRevision rfork rjoin tryjoin
syntax keyword reviseCall call
syntax keyword reviseConstant true false none
syntax keyword reviseBuiltin input inputs pick
syntax match reviseOpenText /"[ !#-~]*/
syntax match reviseText /"[ !#-~]*"/
syntax match reviseComment /\/\/.*$/

highlight default link reviseBadByte Error
highlight default link reviseBadNumber Error
highlight default link reviseOpenText Error
highlight default link reviseOperator Operator
highlight default link revisePunctuation Delimiter
highlight default link reviseNumber Number
highlight default link reviseDeclaration StorageClass
highlight default link reviseType Type
highlight default link reviseControl Conditional
highlight default link reviseRevision Keyword
highlight default link reviseCall Function
highlight default link reviseConstant Constant
highlight default link reviseBuiltin Function
highlight default link reviseText String
highlight default link reviseComment Comment

let b:current_syntax = 'revise'
