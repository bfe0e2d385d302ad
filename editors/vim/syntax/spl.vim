" Vim syntax file of SPL. Copy the folders `syntax` and `ftdetect` into ~/.vim.
if exists("b:current_syntax")
  finish
endif

syntax case match

syntax match splName "\<[A-Za-z_][A-Za-z0-9_]*\>"
syntax match splOperator "[-=+*/%!~&^|?:<>]"
syntax match splDelimiter "[(){}[\],;.]"
syntax match splBadNumber "\<[0-9][A-Za-z0-9_]*"
syntax match splNumber "\<[0-9]\+[su]\?[bhwl]\?\>"
syntax match splParameter "\$[A-Za-z_][A-Za-z0-9_]*"

syntax keyword splBoolean true false
syntax keyword splType stream list map tuple boolean rstring void mutable
syntax keyword splType int8 int16 int32 int64 uint8 uint16 uint32 uint64
syntax keyword splLeftOut float32 float64 decimal32 decimal64 decimal128 complex32 complex64
syntax keyword splLeftOut timestamp ustring blob xml enum optional set
syntax keyword splStatement if else while for in break continue return submit
syntax keyword splClause namespace type composite public output input param expression graph config
syntax keyword splClause logic state onTuple onPunct window as

syntax match splOperatorKind "\<\%(FileSource\|FileSink\|Filter\|Functor\|Punctor\|Split\|Union\|Custom\|Aggregate\|Join\)\>\ze\s*("
syntax match splCall "\<\%(length\|size\|has\|appendM\|removeM\|clearM\|abs\|min\|max\|substring\|currentPunct\)\>\ze\s*("
syntax match splCall "\<\%(Sum\|Min\|Max\|First\|Last\|Any\|Count\|count\|delta\|punct\)\>\ze\s*("
syntax match splCall "\<\%(sliding\|tumbling\|partitioned\)\>"

syntax match splBadEscape "\\." contained
syntax match splEscape "\\[\"'\\ntr]" contained
syntax region splText start=+"+ skip=+\\.+ end=+"+ end=+$+ oneline contains=splEscape,splBadEscape
syntax region splText start=+'+ skip=+\\.+ end=+'+ end=+$+ oneline contains=splEscape,splBadEscape

syntax match splComment "//.*$"
syntax region splComment start="/\*" end="\*/"
syntax sync fromstart

highlight default link splComment Comment
highlight default link splText String
highlight default link splEscape SpecialChar
highlight default link splBadEscape Error
highlight default link splNumber Number
highlight default link splBadNumber Error
highlight default link splParameter Identifier
highlight default link splBoolean Boolean
highlight default link splType Type
highlight default link splLeftOut Error
highlight default link splStatement Statement
highlight default link splClause Keyword
highlight default link splOperatorKind Structure
highlight default link splCall Function
highlight default link splOperator Operator
highlight default link splDelimiter Delimiter

let b:current_syntax = "spl"
