% Answers queries of the standard input in the form of clpq's transcripts, for library-beside-swipl. Each query has a million inferences.
:- use_module(library(clpq)).
:- use_module(library(lists)).
:- use_module(library(apply)).
:- use_module(library(aggregate)).
:- set_prolog_flag(prefer_rationals, true).
:- set_prolog_flag(double_quotes, codes).
:- set_prolog_flag(occurs_check, true).

% the most answers of a query
most(20).

decimal(X, N, A) :- nonvar(X), !, number_places(N), V is X, format(atom(B), '~*f', [N, V]), unsigned(B, C), A = C.
decimal(_, _, A) :- var(A), !, throw(error(instantiation_error, _)).
decimal(X, N, A) :-
    atom_codes(A, Cs),
    ( Cs = [0'-|Ds] -> Sign = -1 ; Sign = 1, Ds = Cs ),
    ( append(Ws, [0'.|Ps], Ds) -> Ps = [_|_] ; Ws = Ds, Ps = [] ),
    Ws = [_|_], append(Ws, Ps, All), forall(member(C, All), between(0'0, 0'9, C)),
    number_codes(I, All), length(Ps, N), X is Sign*I/10**N.

% a zero without its sign
unsigned(B, C) :-
    ( sub_atom(B, 0, 1, _, -), atom_number(B, F), F =:= 0 -> sub_atom(B, 1, _, 0, C) ; C = B ).

round_to(X, N, Y) :- number_places(N), V is X, Y is sign(V)*floor(abs(V)*10**N + 1r2)/10**N.

number_places(N) :- must_be(integer, N), ( N < 0 -> throw(error(domain_error(not_less_than_zero, N), _)) ; true ).

main :- read_term(Q, [variable_names(Names)]), ( Q == end_of_file -> halt ; answer(Q, Names), format("~n== next ==~n"), main ).

answer((?- G), Names) :-
    nb_setval(count, 0), most(Most),
    catch(call_with_inference_limit(solve(G, Names, Most), 1000000, Result), Ball, ball(Ball)),
    ( Result == inference_limit_exceeded -> format("no end~n") ; true ).

solve(G, Names, Most) :-
    (   call(G), \+ \+ lines(Names), nb_getval(count, N), M is N + 1, nb_setval(count, M), M >= Most
    ->  format("more~n")
    ;   format("no~n")
    ).

ball(error(E, _)) :- !, numbered(E), format("error: ~W~n", [E, [quoted(true), numbervars(true)]]).
ball(B) :- format("error: ~q~n", [B]).

% unbound variables of the query get their names, the others numbers
lines(Names) :-
    term_attvars(Names, As), maplist(del_attrs, As),
    aliases(Names, Lines),
    numbered(Lines),
    forall(member(Name=T, Lines), format("~w = ~W~n", [Name, T, [quoted(true), numbervars(true), priority(699), spacing(standard)]])),
    format(";~n").

aliases([], []).
aliases([Name=V|Ns], Lines) :-
    (   sub_atom(Name, 0, 1, _, '_') -> aliases(Ns, Lines)
    ;   var(V) -> V = '$VAR'(Name), aliases(Ns, Lines)
    ;   Lines = [Name=V|Rest], aliases(Ns, Rest)
    ).

numbered(T) :- term_variables(T, Vs), foldl(numbered, Vs, 1, _).

numbered('$VAR'(A), N, M) :- atom_concat('_', N, A), M is N + 1.

:- initialization(main, main).
