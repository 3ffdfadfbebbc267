" Sources of ags, the project's profile of LEMAP (docs/SOURCE.md): the symbol in column 1, the operation, the operand, a remark.
if exists('b:current_syntax')
  finish
endif

syntax case match

syntax match lemapComment /^\*.*$/
syntax match lemapSymbol /^\%([0-9]*[A-Z]\)\@=[A-Z0-9]\{1,6}[ \t]\@=/ nextgroup=@lemapOperation skipwhite
syntax match lemapNoSymbol /^[ \t]\+/ nextgroup=@lemapOperation

syntax cluster lemapOperation contains=lemapOrder,lemapOrderAlone,lemapPlace,lemapDecimals,lemapOctals,lemapEnd

" The 27 orders; two of them and END have no operand, and all after them is remark.
syntax keyword lemapOrder contained nextgroup=lemapExpression skipwhite ADD ADZ ALS AXT CLA CLZ DLY DVP INP LDQ LLS LRS MPR
syntax keyword lemapOrder contained nextgroup=lemapExpression skipwhite MPY MPZ OUT STO STQ SUB SUZ TIX TMI TOV TRA TSQ
syntax keyword lemapOrderAlone contained nextgroup=lemapRemark ABS COM
syntax keyword lemapPlace contained nextgroup=lemapExpression skipwhite ORG EQU SYN BSS BES
syntax keyword lemapDecimals contained nextgroup=lemapDecimalList skipwhite DEC
syntax keyword lemapOctals contained nextgroup=lemapOctalList skipwhite OCT
syntax keyword lemapEnd contained nextgroup=lemapRemark END

syntax match lemapExpression /[^ \t]\+/ contained contains=lemapOctal,lemapDecimal,lemapName,lemapHere,lemapIndex nextgroup=lemapRemark
syntax match lemapOctal +/[0-7]\{1,6}+ contained
syntax match lemapDecimal /[0-9]\{1,6}/ contained
syntax match lemapName /\%([0-9]*[A-Z]\)\@=[A-Z0-9]\{1,6}/ contained
syntax match lemapHere /\*/ contained
syntax match lemapIndex /,1\%([ \t]\|$\)\@=/ contained
syntax match lemapDecimalList /[^ \t]\+/ contained contains=lemapDecimalNumber nextgroup=lemapRemark
syntax match lemapDecimalNumber /[+-]\?\%([0-9]\+\.\?[0-9]*\|\.[0-9]\+\)\%(E[+-]\?[0-9]\{1,2}\)\?\%(B[+-]\?[0-9]\{1,2}\)\?/ contained
syntax match lemapOctalList /[^ \t]\+/ contained contains=lemapOctalNumber nextgroup=lemapRemark
syntax match lemapOctalNumber /[+-]\?[0-7]\{1,6}/ contained
syntax match lemapRemark /[ \t].*$/ contained

highlight default link lemapComment Comment
highlight default link lemapSymbol Label
highlight default link lemapOrder Statement
highlight default link lemapOrderAlone Statement
highlight default link lemapPlace PreProc
highlight default link lemapDecimals PreProc
highlight default link lemapOctals PreProc
highlight default link lemapEnd PreProc
highlight default link lemapOctal Number
highlight default link lemapDecimal Number
highlight default link lemapName Identifier
highlight default link lemapHere Special
highlight default link lemapIndex Special
highlight default link lemapDecimalNumber Number
highlight default link lemapOctalNumber Number
highlight default link lemapRemark Comment

let b:current_syntax = 'lemap'
