" Certificates of ags (docs/CERTIFICATE.md): a kind and its fields on each line.
if exists('b:current_syntax')
  finish
endif

syntax case match

syntax match agscertComment /^#.*$/
syntax match agscertHead /^[ \t]*AGSCERT[ \t]\+[0-9]\+[ \t]*$/
syntax match agscertKind /^[ \t]*\%(START\|CELL\|INIT\|IN\|OUT\|MAY\|AT\|LINK\)\%([ \t]\|$\)\@=/
syntax match agscertRow /^[ \t]*ROW\%([ \t]\|$\)\@=/
syntax match agscertEnd /^[ \t]*END[ \t]*$/
syntax match agscertField /[ \t]\@1<=[AQXV][ \t]\@=/
syntax match agscertValue /[ \t]\@1<=\%(ANY\|RANGE\|WORDS\)\%([ \t]\|$\)\@=/
syntax match agscertNumber /[ \t]\@1<=-\?[0-9]\+\%([ \t]\|$\)\@=/

highlight default link agscertComment Comment
highlight default link agscertHead PreProc
highlight default link agscertKind Keyword
highlight default link agscertRow Statement
highlight default link agscertEnd PreProc
highlight default link agscertField Identifier
highlight default link agscertValue Type
highlight default link agscertNumber Number

let b:current_syntax = 'agscert'
