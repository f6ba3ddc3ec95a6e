" Vim syntax file
" Language: clpq, Prolog with exact rational linear constraints
" Use:      :set filetype=clpq, or a line `% vim: filetype=clpq` in the program

if exists("b:current_syntax")
  finish
endif

let s:cpo_save = &cpo
set cpo&vim

syn case match
" keywords here may have a `_` and digits
syn iskeyword @,48-57,_,192-255

syn match  clpqNumber   "\<\d\+\%(r\d\+\)\?\>"
syn match  clpqNumber   "\<0x\x\+\>\|\<0o\o\+\>\|\<0b[01]\+\>"
" a character's code: 0'a, 0'', 0'\n, 0'\x41\
syn match  clpqNumber   "0'\%(''\|\\x\x\+\\\|\\\o\+\\\|\\.\|[^'\\]\)"
" a numeral with a decimal point is an error of syntax
syn match  clpqError    "\<\d\+\.\d\+\>"

syn match  clpqVariable "\<[A-Z_][A-Za-z0-9_]*\>"

syn match  clpqEscape   contained "\\\%(x\x\+\\\|\o\+\\\|[abfnrtv\\'\"`]\|$\)"
syn region clpqAtom     start=+'+ skip=+''\|\\'+ end=+'+ contains=clpqEscape
syn region clpqString   start=+"+ skip=+""\|\\"+ end=+"+ contains=clpqEscape

syn match  clpqOperator "[-+*/\\^<>=~:?@#&$]\+"
syn match  clpqOperator ":-\|-->\|?-\|[!;,|]"
syn keyword clpqOperator is mod rem

syn keyword clpqControl call once catch throw findall freeze true fail initialization dynamic discontiguous use_module op
syn keyword clpqBuiltin var nonvar atom number integer rational atomic compound callable is_list
syn keyword clpqBuiltin functor arg copy_term atom_length atom_chars atom_codes char_code number_codes atom_concat sub_atom
syn keyword clpqBuiltin asserta assertz retract clause write writeq nl
syn keyword clpqConstraint entailed sup inf minimize maximize
syn match  clpqConstraint "[{}]"

syn keyword clpqTodo    contained TODO FIXME
syn match  clpqQuery    contained "`?-[^`]*`"
syn match  clpqComment  "%.*" contains=clpqTodo,clpqQuery,@Spell
syn region clpqComment  start="/\*" end="\*/" contains=clpqTodo,@Spell

hi def link clpqNumber     Number
hi def link clpqError      Error
hi def link clpqVariable   Identifier
hi def link clpqEscape     SpecialChar
hi def link clpqAtom       String
hi def link clpqString     String
hi def link clpqOperator   Operator
hi def link clpqControl    Statement
hi def link clpqBuiltin    Function
hi def link clpqConstraint Special
hi def link clpqTodo       Todo
hi def link clpqQuery      SpecialComment
hi def link clpqComment    Comment

let b:current_syntax = "clpq"

let &cpo = s:cpo_save
unlet s:cpo_save
