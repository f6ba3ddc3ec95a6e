% Lists, numbers and texts: the clauses of lists.pl, numbers.pl and text.pl in one file, made of them by `.ci/library make`.
% Their comments say what each predicate does. A program that defines one of these itself, as its own member/2, adds clauses to it, and
% its answers then come twice: take the clauses out of the program, or consult the parts that it wants in place of this file.
%
%   clpq run lib/prelude.pl plan.pl

% from lists.pl

append([], Ys, Ys).
append([X|Xs], Ys, [X|Zs]) :- append(Xs, Ys, Zs).

member(X, [Y|Ys]) :- member_(Ys, Y, X).

member_(_, X, X).
member_([Y|Ys], _, X) :- member_(Ys, Y, X).

memberchk(X, Xs) :- member(X, Xs), !.

length(Xs, N) :-
    length_walk_(Xs, 0, K, End),
    ( var(N) -> true
    ; \+ integer(N) -> throw(error(type_error(integer, N), length/2))
    ; N < 0 -> throw(error(domain_error(not_less_than_zero, N), length/2))
    ; true ),
    ( nonvar(End), End \== [] -> throw(error(type_error(list, Xs), length/2)) ; true ),
    length_end_(End, K, N).

length_walk_(Xs, K, K, Xs) :- var(Xs), !.
length_walk_([_|Xs], J, K, End) :- !, I is J + 1, length_walk_(Xs, I, K, End).
length_walk_(End, K, K, End).

length_end_(End, K, N) :- End == [], !, N = K.
length_end_(End, K, N) :- integer(N), !, K =< N, M is N - K, length_fill_(M, End).
length_end_(End, _, N) :- End == N, !, fail.
length_end_(End, K, N) :- sup(N, S), !, Most is floor(S), length_most_(End, K, Most, N).
length_end_(End, K, N) :- length_more_(End, K, N).

length_fill_(0, []) :- !.
length_fill_(M, [_|Xs]) :- L is M - 1, length_fill_(L, Xs).

length_more_([], N, N).
length_more_([_|Xs], K, N) :- J is K + 1, length_more_(Xs, J, N).

length_most_(Xs, K, Most, N) :- K =< Most, length_next_(Xs, K, Most, N).

length_next_([], N, _, N).
length_next_([_|Xs], K, Most, N) :- J is K + 1, length_most_(Xs, J, Most, N).

reverse(Xs, Ys) :- reverse_(Xs, Ys, [], Ys).

reverse_([], [], Ys, Ys).
reverse_([X|Xs], [_|Bound], Zs, Ys) :- reverse_(Xs, Bound, [X|Zs], Ys).

last([X|Xs], Last) :- last_(Xs, X, Last).

last_([], Last, Last).
last_([X|Xs], _, Last) :- last_(Xs, X, Last).

nth0(N, Xs, X) :- nth_(N, 0, Xs, X, nth0/3).

nth1(N, Xs, X) :- nth_(N, 1, Xs, X, nth1/3).

nth_(N, First, Xs, X, _) :- integer(N), !, M is N - First, M >= 0, nth_given_(M, Xs, X).
nth_(N, First, [Y|Ys], X, _) :- var(N), !, nth_found_(Ys, Y, First, N, X).
nth_(N, _, _, _, PI) :- nonvar(N), throw(error(type_error(integer, N), PI)).

nth_given_(0, [X|_], Y) :- !, X = Y.
nth_given_(M, [_|Xs], X) :- L is M - 1, nth_given_(L, Xs, X).

nth_found_(_, X, N, N, X).
nth_found_([Y|Ys], _, M, N, X) :- L is M + 1, nth_found_(Ys, Y, L, N, X).

delete([], _, []).
delete([Y|Ys], X, Zs) :-
    ( Y \= X -> Zs = [Y|Rest] ; Zs = Rest ),
    delete(Ys, X, Rest).

msort(Xs, Ys) :-
    sort_length_(Xs, msort/2, N),
    msort_(N, Xs, _, Zs),
    Ys = Zs.

msort_(0, Xs, Xs, []) :- !.
msort_(1, [X|Xs], Xs, [X]) :- !.
msort_(N, Xs, Rest, Zs) :-
    K is N // 2, L is N - K,
    msort_(K, Xs, Ys, As),
    msort_(L, Ys, Rest, Bs),
    msort_merge_(As, Bs, Zs).

msort_merge_([], Bs, Bs) :- !.
msort_merge_(As, [], As) :- !.
msort_merge_([A|As], [B|Bs], Zs) :-
    ( A @=< B -> Zs = [A|Rest], msort_merge_(As, [B|Bs], Rest)
    ; Zs = [B|Rest], msort_merge_([A|As], Bs, Rest) ).

sort(Xs, Ys) :-
    sort_length_(Xs, sort/2, N),
    msort_(N, Xs, _, Zs),
    sort_once_(Zs, Us),
    Ys = Us.

sort_once_([], []).
sort_once_([X|Xs], [X|Ys]) :- sort_once_(Xs, X, Ys).

sort_once_([], _, []).
sort_once_([Y|Ys], X, Zs) :-
    ( Y == X -> sort_once_(Ys, X, Zs) ; Zs = [Y|Rest], sort_once_(Ys, Y, Rest) ).

sort_length_(Xs, PI, N) :-
    length_walk_(Xs, 0, N, End),
    ( var(End) -> throw(error(instantiation_error, PI))
    ; End == [] -> true
    ; throw(error(type_error(list, Xs), PI)) ).

predsort(Order, Xs, Ys) :-
    sort_length_(Xs, predsort/3, N),
    predsort_(N, Order, Xs, _, Zs), !,
    Ys = Zs.

predsort_(0, _, Xs, Xs, []) :- !.
predsort_(1, _, [X|Xs], Xs, [X]) :- !.
predsort_(N, Order, Xs, Rest, Zs) :-
    K is N // 2, L is N - K,
    predsort_(K, Order, Xs, Ys, As),
    predsort_(L, Order, Ys, Rest, Bs),
    predsort_merge_(As, Bs, Order, Zs).

predsort_merge_([], Bs, _, Bs) :- !.
predsort_merge_(As, [], _, As) :- !.
predsort_merge_([A|As], [B|Bs], Order, Zs) :-
    call(Order, O, A, B), !,
    predsort_put_(O, A, As, B, Bs, Order, Zs).

predsort_put_(<, A, As, B, Bs, Order, [A|Zs]) :- predsort_merge_(As, [B|Bs], Order, Zs).
predsort_put_(=, A, As, _, Bs, Order, [A|Zs]) :- predsort_merge_(As, Bs, Order, Zs).
predsort_put_(>, A, As, B, Bs, Order, [B|Zs]) :- predsort_merge_([A|As], Bs, Order, Zs).

compare(Order, X, Y) :-
    ( X == Y -> Is = (=) ; X @< Y -> Is = (<) ; Is = (>) ),
    ( var(Order) -> true
    ; \+ atom(Order) -> throw(error(type_error(atom, Order), compare/3))
    ; member(Order, [<,=,>]) -> true
    ; throw(error(domain_error(order, Order), compare/3)) ),
    Order = Is.

maplist(G, Xs) :- maplist_(Xs, G).

maplist_([], _).
maplist_([X|Xs], G) :- call(G, X), maplist_(Xs, G).

maplist(G, Xs, Ys) :- maplist_(Xs, Ys, G).

maplist_([], [], _).
maplist_([X|Xs], [Y|Ys], G) :- call(G, X, Y), maplist_(Xs, Ys, G).

maplist(G, Xs, Ys, Zs) :- maplist_(Xs, Ys, Zs, G).

maplist_([], [], [], _).
maplist_([X|Xs], [Y|Ys], [Z|Zs], G) :- call(G, X, Y, Z), maplist_(Xs, Ys, Zs, G).

maplist(G, Ws, Xs, Ys, Zs) :- maplist_(Ws, Xs, Ys, Zs, G).

maplist_([], [], [], [], _).
maplist_([W|Ws], [X|Xs], [Y|Ys], [Z|Zs], G) :- call(G, W, X, Y, Z), maplist_(Ws, Xs, Ys, Zs, G).

foldl(G, Xs, V, W) :- foldl_(Xs, G, V, W).

foldl_([], _, V, V).
foldl_([X|Xs], G, U, W) :- call(G, X, U, V), foldl_(Xs, G, V, W).

foldl(G, Xs, Ys, V, W) :- foldl_(Xs, Ys, G, V, W).

foldl_([], [], _, V, V).
foldl_([X|Xs], [Y|Ys], G, U, W) :- call(G, X, Y, U, V), foldl_(Xs, Ys, G, V, W).

foldl(G, Xs, Ys, Zs, V, W) :- foldl_(Xs, Ys, Zs, G, V, W).

foldl_([], [], [], _, V, V).
foldl_([X|Xs], [Y|Ys], [Z|Zs], G, U, W) :- call(G, X, Y, Z, U, V), foldl_(Xs, Ys, Zs, G, V, W).

include(G, Xs, Ys) :- include_(Xs, G, Ys).

include_([], _, []).
include_([X|Xs], G, Ys) :-
    ( call(G, X) -> Ys = [X|Rest] ; Ys = Rest ),
    include_(Xs, G, Rest).

exclude(G, Xs, Ys) :- exclude_(Xs, G, Ys).

exclude_([], _, []).
exclude_([X|Xs], G, Ys) :-
    ( call(G, X) -> Ys = Rest ; Ys = [X|Rest] ),
    exclude_(Xs, G, Rest).

forall(C, G) :- \+ ( C, \+ G ).

not(G) :- \+ G.

ignore(G) :- ( call(G) -> true ; true ).

false :- fail.

aggregate_all(Spec, _, _) :- var(Spec), !, throw(error(instantiation_error, aggregate_all/3)).
aggregate_all(count, G, N) :- !, findall(x, G, Xs), length(Xs, M), N = M.
aggregate_all(sum(E), G, S) :- !, findall(E, G, Es), aggregate_sum_(Es, 0, T), S = T.
aggregate_all(max(E), G, M) :- !, findall(E, G, [F|Es]), V is F, aggregate_max_(Es, V, W), M = W.
aggregate_all(min(E), G, M) :- !, findall(E, G, [F|Es]), V is F, aggregate_min_(Es, V, W), M = W.
aggregate_all(max(E, T), G, M) :- !, aggregate_pairs_(E, T, G, F, W, Ps), aggregate_max_(Ps, F, W, M).
aggregate_all(min(E, T), G, M) :- !, aggregate_pairs_(E, T, G, F, W, Ps), aggregate_min_(Ps, F, W, M).
aggregate_all(bag(T), G, L) :- !, findall(T, G, L).
aggregate_all(set(T), G, L) :- !, findall(T, G, Ts), sort(Ts, L).
aggregate_all(Spec, _, _) :- throw(error(domain_error(aggregate_template, Spec), aggregate_all/3)).

aggregate_sum_([], S, S).
aggregate_sum_([E|Es], S, U) :- T is S + E, aggregate_sum_(Es, T, U).

aggregate_max_([], M, M).
aggregate_max_([E|Es], L, M) :- K is max(L, E), aggregate_max_(Es, K, M).

aggregate_min_([], M, M).
aggregate_min_([E|Es], L, M) :- K is min(L, E), aggregate_min_(Es, K, M).

aggregate_pairs_(E, T, G, F, W, Ps) :-
    findall(E-T, G, [F-W|Ps]),
    ( number(F) -> true ; throw(error(type_error(number, F), aggregate_all/3)) ).

aggregate_max_([], M, W, max(M, W)).
aggregate_max_([E-V|Ps], L, W, M) :-
    ( E > L -> aggregate_max_(Ps, E, V, M) ; aggregate_max_(Ps, L, W, M) ).

aggregate_min_([], M, W, min(M, W)).
aggregate_min_([E-V|Ps], L, W, M) :-
    ( E < L -> aggregate_min_(Ps, E, V, M) ; aggregate_min_(Ps, L, W, M) ).

% from numbers.pl

between(Low, High, X) :-
    between_whole_(Low),
    ( High == inf -> Last = inf ; High == infinite -> Last = inf ; between_whole_(High), Last = High ),
    ( var(X) -> between_most_(Last, X, Most), between_(Most, Low, X)
    ; between_whole_(X), Low =< X, ( Last == inf -> true ; X =< Last ) ).

between_whole_(X) :- integer(X), !.
between_whole_(X) :- var(X), !, throw(error(instantiation_error, between/3)).
between_whole_(X) :- throw(error(type_error(integer, X), between/3)).

between_most_(inf, X, Most) :- sup(X, S), !, Most is floor(S).
between_most_(Last, _, Last).

between_(inf, Low, X) :- !, between_on_(Low, X).
between_(Most, Low, X) :- Low =< Most, between_to_(Most, Low, X).

between_on_(X, X).
between_on_(M, X) :- N is M + 1, between_on_(N, X).

between_to_(N, N, X) :- !, X = N.
between_to_(_, N, N).
between_to_(Most, M, X) :- N is M + 1, between_to_(Most, N, X).

sum_list(Xs, Sum) :- sum_list_(Xs, 0, Sum).

sum_list_([], S, S).
sum_list_([X|Xs], S, Sum) :- T is S + X, sum_list_(Xs, T, Sum).

decimal(X, N, Text) :- var(X), !, decimal_read_(Text, X, N).
decimal(X, N, Text) :-
    places_(X, N, decimal/3, Sign, Whole, Digits),
    number_codes(Whole, Cs),
    decimal_codes_(Digits, Ds),
    decimal_sign_(Sign, Whole, Digits, Cs, Ds, Codes),
    atom_codes(A, Codes),
    Text = A.

decimal_codes_([], []).
decimal_codes_([D|Ds], [0'., C|Cs]) :- C is 0'0 + D, decimal_more_(Ds, Cs).

decimal_more_([], []).
decimal_more_([D|Ds], [C|Cs]) :- C is 0'0 + D, decimal_more_(Ds, Cs).

decimal_sign_(Sign, Whole, Digits, Cs, Ds, Codes) :-
    decimal_join_(Cs, Ds, Plain),
    ( Sign < 0, \+ ( Whole =:= 0, decimal_zero_(Digits) ) -> Codes = [0'-|Plain] ; Codes = Plain ).

decimal_join_([], Ds, Ds).
decimal_join_([C|Cs], Ds, [C|Es]) :- decimal_join_(Cs, Ds, Es).

decimal_zero_([]).
decimal_zero_([0|Ds]) :- decimal_zero_(Ds).

decimal_read_(Text, _, _) :- var(Text), !, throw(error(instantiation_error, decimal/3)).
decimal_read_(Text, _, _) :- \+ atom(Text), !, throw(error(type_error(atom, Text), decimal/3)).
decimal_read_(Text, X, N) :-
    atom_codes(Text, Cs),
    ( Cs = [0'-|Ds] -> Codes = [0'-|Es] ; Ds = Cs, Codes = Es ),
    decimal_digits_(Ds, Es, Es0, Rest), Ds \== Rest,
    ( Rest = [] -> Parts = [] ; Rest = [0'.|Fs], Fs = [_|_], decimal_digits_(Fs, Parts, [], []) ),
    decimal_parts_(Parts, 0, N, Es0, [0'r, 0'1|Zeros], Zeros),
    number_codes(X, Codes).

decimal_digits_([C|Cs], [C|Ds], End, Rest) :- C >= 0'0, C =< 0'9, !, decimal_digits_(Cs, Ds, End, Rest).
decimal_digits_(Cs, End, End, Cs).

decimal_parts_(Parts, M, N, Es, End, Zeros) :-
    ( decimal_zeros_(Parts) -> decimal_count_(Parts, M, N), Es = End, Zeros = []
    ; Parts = [C|Cs], Es = [C|Fs], Zeros = [0'0|More], L is M + 1, decimal_parts_(Cs, L, N, Fs, End, More) ).

decimal_zeros_([]).
decimal_zeros_([0'0|Cs]) :- decimal_zeros_(Cs).

decimal_count_([], N, N).
decimal_count_([_|Cs], M, N) :- L is M + 1, decimal_count_(Cs, L, N).

round_to(X, N, Y) :-
    places_(X, N, round_to/3, Sign, Whole, Digits),
    places_value_(Digits, Part),
    Y is Sign*(Whole + Part).

places_value_([], 0).
places_value_([D|Ds], V) :- places_value_(Ds, W), V is (D + W)/10.

places_(X, N, PI, Sign, Whole, Digits) :-
    V is X,
    ( integer(N) -> true
    ; var(N) -> throw(error(instantiation_error, PI))
    ; throw(error(type_error(integer, N), PI)) ),
    ( N >= 0 -> true ; throw(error(domain_error(not_less_than_zero, N), PI)) ),
    Sign is sign(V), A is abs(V), I is floor(A), F is A - I,
    places_digits_(N, F, Digits, Carry),
    Whole is I + Carry.

places_digits_(0, F, [], Carry) :- !, ( F >= 1r2 -> Carry = 1 ; Carry = 0 ).
places_digits_(N, F, [D|Ds], Carry) :-
    places_next_(F, E, Rest),
    M is N - 1,
    places_digits_(M, Rest, Ds, C),
    ( E + C =:= 10 -> D = 0, Carry = 1 ; D is E + C, Carry = 0 ).

places_next_(F, Digit, Rest) :-
    places_sum_(F, F, A, Two),
    places_sum_(Two, Two, B, Four),
    places_sum_(Four, Four, C, Eight),
    places_sum_(Two, Eight, D, Rest),
    Digit is 5*A + 2*B + C + D.

places_sum_(X, Y, Whole, Rest) :-
    ( X >= 1 - Y -> Whole = 1, Rest is X - (1 - Y) ; Whole = 0, Rest is X + Y ).

% from text.pl

writeln(X) :- write(X), nl.

tab(N) :-
    M is N,
    ( integer(M) -> tab_(M) ; throw(error(type_error(integer, M), tab/1)) ).

tab_(N) :- N =< 0, !.
tab_(N) :- write(' '), M is N - 1, tab_(M).

atom_number(A, N) :- atom(A), !, atom_codes(A, Cs), atom_number_(Cs, Ds), catch(number_codes(M, Ds), error(syntax_error(_), _), fail), N = M.
atom_number(A, _) :- nonvar(A), !, throw(error(type_error(atom, A), atom_number/2)).
atom_number(_, N) :- var(N), !, throw(error(instantiation_error, atom_number/2)).
atom_number(A, N) :- number(N), !, number_codes(N, Cs), atom_codes(A, Cs).
atom_number(_, N) :- throw(error(type_error(number, N), atom_number/2)).

atom_number_([0'+, C|Cs], [C|Cs]) :- !, atom_number_digit_(C).
atom_number_([0'-, C|Cs], [0'-, C|Cs]) :- !, atom_number_digit_(C).
atom_number_([C|Cs], [C|Cs]) :- atom_number_digit_(C).

atom_number_digit_(C) :- C >= 0'0, C =< 0'9.

format(Pattern) :- format(Pattern, []).

format(Pattern, Args) :-
    ( var(Pattern) -> throw(error(instantiation_error, format/2)) ; true ),
    ( format_text_(Pattern, Cs) -> true ; throw(error(type_error(text, Pattern), format/2)) ),
    ( is_list(Args) -> As = Args ; As = [Args] ),
    format_(Cs, As).

format_text_(T, []) :- T == [], !.
format_text_(T, Cs) :- atom(T), !, atom_codes(T, Cs).
format_text_(T, Cs) :- is_list(T), format_codes_(T, Cs).

format_codes_([], []).
format_codes_([T|Ts], [C|Cs]) :-
    ( integer(T) -> T >= 0, C = T ; atom(T), atom_length(T, 1), char_code(T, C) ),
    format_codes_(Ts, Cs).

format_([], []) :- !.
format_([], _) :- throw(error(format('too many arguments'), format/2)).
format_([0'~|Cs], As) :- !, format_number_(Cs, none, N, Ds), format_directive_(Ds, N, As).
format_(Cs, As) :- format_plain_(Cs, Ps, Rest), atom_codes(A, Ps), write(A), format_(Rest, As).

format_plain_([C|Cs], [C|Ps], Rest) :- C =\= 0'~, !, format_plain_(Cs, Ps, Rest).
format_plain_(Cs, [], Cs).

format_number_([C|Cs], M, N, Ds) :-
    C >= 0'0, C =< 0'9, !,
    ( M == none -> L is C - 0'0 ; L is 10*M + C - 0'0 ),
    format_number_(Cs, L, N, Ds).
format_number_(Cs, N, N, Cs).

format_directive_([], _, _) :- throw(error(existence_error(format_character, ''), format/2)).
format_directive_([C|Cs], N, As) :-
    char_code(D, C),
    ( format_alone_(D, N) -> format_(Cs, As)
    ; \+ format_takes_(D) -> throw(error(existence_error(format_character, D), format/2))
    ; As = [A|Bs] -> format_argument_(D, N, A), format_(Cs, Bs)
    ; throw(error(format('not enough arguments'), format/2)) ).

format_alone_(n, N) :- ( N == none -> nl ; format_lines_(N) ).
format_alone_(~, _) :- write(~).

format_lines_(0) :- !.
format_lines_(N) :- nl, M is N - 1, format_lines_(M).

format_takes_(w).
format_takes_(p).
format_takes_(q).
format_takes_(a).
format_takes_(d).
format_takes_(f).
format_takes_(s).

format_argument_(w, _, A) :- write(A).
format_argument_(p, _, A) :- writeq(A).
format_argument_(q, _, A) :- writeq(A).
format_argument_(a, _, A) :- format_check_(atomic(A), a, A), write(A).
format_argument_(d, N, A) :-
    V is A,
    format_check_(integer(V), d, A),
    ( N == none -> write(V) ; N =:= 0 -> write(V) ; format_power_(N, 1, P), W is V/P, decimal(W, N, T), write(T) ).
format_argument_(f, N, A) :-
    V is A,
    ( N == none -> decimal(V, 6, T) ; decimal(V, N, T) ),
    write(T).
format_argument_(s, _, A) :- format_check_(format_text_(A, Cs), s, A), atom_codes(T, Cs), write(T).

format_check_(G, D, A) :- ( call(G) -> true ; throw(error(format_argument_type(D, A), format/2)) ).

format_power_(0, P, P) :- !.
format_power_(N, P, R) :- Q is 10*P, M is N - 1, format_power_(M, Q, R).
