" Vim syntax file for XC, as xcsim reads it.
" Made by tools/editor-files from tools/words.txt.
if exists("b:current_syntax")
  finish
endif

syn keyword xcControl break case continue default do else for if master par return select slave while
syn keyword xcTypes chan chanend int port timer unsigned void
syn keyword xcPlaces in on out stdcore tile
syn keyword xcConditions pinseq pinsneq timerafter when
syn keyword xcKept buffered char clock const float goto inline interface long short signed sizeof static streaming struct switch transaction typedef union
syn match xcPort "\v<XS1_PORT_(1[A-P]|4[A-F]|8[A-D]|16[A-B]|32A)>"
syn match xcNoNumber "\v<\d\w*>"
syn match xcNumber "\v<(0x\x+|0b[01]+|0\o*|[1-9]\d*)[uU]=>"
syn match xcOperator "\V<<=\|>>=\|!=\|%=\|&&\|&=\|*=\|++\|+=\|--\|-=\|/=\|<<\|<=\|==\|=>\|>=\|>>\|^=\||=\|||\|!\|%\|&\|*\|+\|-\|/\|:\|<\|=\|>\|?\|^\||\|~"
syn match xcTransfer "\V<:\|:>\|@"
syn match xcNoDirective "\v^\s*#.*$" contains=xcComment
syn match xcInclude "\v^\s*#include\s*\<(platform|print|xs1)\.h\>"
syn match xcDefine "\v^\s*#define>" nextgroup=xcDefined skipwhite
syn match xcDefined "\v\h\w*>" contained
syn keyword xcTodo TODO FIXME XXX contained
syn match xcComment "//.*$" contains=xcTodo,@Spell
syn region xcComment start="/\*" end="\*/" contains=xcTodo,@Spell
syn sync ccomment xcComment

hi def link xcControl Statement
hi def link xcTypes Type
hi def link xcPlaces StorageClass
hi def link xcConditions Function
hi def link xcKept Error
hi def link xcPort Constant
hi def link xcNoNumber Error
hi def link xcNumber Number
hi def link xcOperator Operator
hi def link xcTransfer Special
hi def link xcNoDirective Error
hi def link xcInclude Include
hi def link xcDefine Define
hi def link xcTodo Todo
hi def link xcComment Comment

let b:current_syntax = "xc"
