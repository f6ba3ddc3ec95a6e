% Whole numbers in turn, sums, and exact decimals, written in what clpq itself has.
%
%   clpq run lib/numbers.pl plan.pl
%
% between/3 and sum_list/2 are SWI-Prolog's and do in these modes what they do there; decimal/3 and round_to/3 are this library's. Nothing
% here is rounded but by the last two. A program that defines one of these itself adds clauses to it: its answers then come twice.
% Helpers have names that end in `_`. How modes and queries are to be read stands at the top of lists.pl.

%!  between(+Low, +High, ?X) is nondet.
%
%   X is a whole number from Low to High, the least first; `semidet` where X is given. High may be `inf` or `infinite`: the numbers then go
%   on, and end where constraints bound X above (SWI-Prolog goes on). Errors: instantiation_error, type_error(integer, _).
%   - `?- between(1, 3, X).` gives `X = 1`, `;`, `X = 2`, `;`, `X = 3`, `;`, `no`
%   - `?- between(1, 3, 2).` gives `true`, `;`, `no`
%   - `?- between(2, 1, X).` gives `no`
%   - `?- {3*X + 5*Y = 31, Y >= 0}, between(0, 10, X), integer(Y).` gives `X = 2`, `Y = 5`, `;`, `X = 7`, `Y = 2`, `;`, `no`
%   - `?- {X < 1r2}, between(-1, inf, X).` gives `X = -1`, `;`, `X = 0`, `;`, `no`
%   - `?- between(1, a, X).` gives `error: error(type_error(integer,a),between/3)`
%   - `?- between(1, 3, 1r2).` gives `error: error(type_error(integer,1r2),between/3)`
%   - `?- between(_, 3, 1).` gives `error: error(instantiation_error,between/3)`
between(Low, High, X) :-
    between_whole_(Low),
    ( High == inf -> Last = inf ; High == infinite -> Last = inf ; between_whole_(High), Last = High ),
    ( var(X) -> between_most_(Last, X, Most), between_(Most, Low, X)
    ; between_whole_(X), Low =< X, ( Last == inf -> true ; X =< Last ) ).

between_whole_(X) :- integer(X), !.
between_whole_(X) :- var(X), !, throw(error(instantiation_error, between/3)).
between_whole_(X) :- throw(error(type_error(integer, X), between/3)).

between_most_(inf, X, Most) :- sup(X, S), !, Most is floor(S).
between_most_(Last, _, Last).

between_(inf, Low, X) :- !, between_on_(Low, X).
between_(Most, Low, X) :- Low =< Most, between_to_(Most, Low, X).

between_on_(X, X).
between_on_(M, X) :- N is M + 1, between_on_(N, X).

between_to_(N, N, X) :- !, X = N.
between_to_(_, N, N).
between_to_(Most, M, X) :- N is M + 1, between_to_(Most, N, X).

%!  sum_list(+Xs, -Sum) is det.
%
%   The sum of the values of a list; 0 for the empty one. For a sum over unknowns tell it in braces.
%   - `?- sum_list([1r2,1r3,2*3], S).` gives `S = 41r6`, `;`, `no`
%   - `?- sum_list([], S).` gives `S = 0`, `;`, `no`
%   - `?- {X + 1 = 3}, sum_list([X,X], S).` gives `X = 2`, `S = 4`, `;`, `no`
%   - `?- sum_list([_], S).` gives `error: error(instantiation_error,(is)/2)`
%   - `?- sum_list([a], S).` gives `error: error(type_error(evaluable,a/0),(is)/2)`
sum_list(Xs, Sum) :- sum_list_(Xs, 0, Sum).

sum_list_([], S, S).
sum_list_([X|Xs], S, Sum) :- T is S + X, sum_list_(Xs, T, Sum).

%!  decimal(+X, +N, ?Text) is semidet.
%!  decimal(-X, ?N, +Text) is semidet.
%
%   Text is the atom that shows the value of X with N places, N from 0 on. What lies behind is rounded to the nearest, and a half away
%   from zero, as prices are: 1/8 is 0.13 and -1/8 is -0.13. What is rounded to zero has no sign. Exact for each number of clpq, at
%   any N: no step overflows. The other way round the atom `12.50` is read as the fraction it says, with N places; the text of no
%   decimal fails. Errors: instantiation_error, type_error(integer, N), domain_error(not_less_than_zero, N), type_error(atom,
%   Text), those of arithmetic, and syntax_error(illegal_number) for a text past 128 bits.
%   - `?- decimal(1000/3, 2, A).` gives `A = '333.33'`, `;`, `no`
%   - `?- decimal(1r8, 2, A), decimal(-1r8, 2, B).` gives `A = '0.13'`, `B = '-0.13'`, `;`, `no`
%   - `?- decimal(1r200, 2, A), decimal(-1r200, 2, B), decimal(-1r201, 2, C).` gives `A = '0.01'`, `B = '-0.01'`, `C = '0.00'`, `;`, `no`
%   - `?- decimal(99999r1000, 2, A), decimal(-199r200, 2, B).` gives `A = '100.00'`, `B = '-1.00'`, `;`, `no`
%   - `?- decimal(5r2, 0, A), decimal(-5r2, 0, B).` gives `A = '3'`, `B = '-3'`, `;`, `no`
%   - `?- decimal(3, 2, A), decimal(1r7, 20, B).` gives `A = '3.00'`, `B = '0.14285714285714285714'`, `;`, `no`
%   - `?- decimal(170141183460469231731687303715884105726r170141183460469231731687303715884105727, 3, A).` gives `A = '1.000'`, `;`, `no`
%   - `?- decimal(X, N, '-12.50').` gives `X = -25r2`, `N = 2`, `;`, `no`
%   - `?- decimal(X, 0, '12.50').` gives `no`
%   - `?- decimal(X, _, '1.').` gives `no`
%   - `?- decimal(1, -1, A).` gives `error: error(domain_error(not_less_than_zero,-1),decimal/3)`
%   - `?- decimal(X, 2, A).` gives `error: error(instantiation_error,decimal/3)`
decimal(X, N, Text) :- var(X), !, decimal_read_(Text, X, N).
decimal(X, N, Text) :-
    places_(X, N, decimal/3, Sign, Whole, Digits),
    number_codes(Whole, Cs),
    decimal_codes_(Digits, Ds),
    decimal_sign_(Sign, Whole, Digits, Cs, Ds, Codes),
    atom_codes(A, Codes),
    Text = A.

decimal_codes_([], []).
decimal_codes_([D|Ds], [0'., C|Cs]) :- C is 0'0 + D, decimal_more_(Ds, Cs).

decimal_more_([], []).
decimal_more_([D|Ds], [C|Cs]) :- C is 0'0 + D, decimal_more_(Ds, Cs).

decimal_sign_(Sign, Whole, Digits, Cs, Ds, Codes) :-
    decimal_join_(Cs, Ds, Plain),
    ( Sign < 0, \+ ( Whole =:= 0, decimal_zero_(Digits) ) -> Codes = [0'-|Plain] ; Codes = Plain ).

decimal_join_([], Ds, Ds).
decimal_join_([C|Cs], Ds, [C|Es]) :- decimal_join_(Cs, Ds, Es).

decimal_zero_([]).
decimal_zero_([0|Ds]) :- decimal_zero_(Ds).

% a text as sign, digits and digits behind the point, which are then read as one fraction: `12.50` as 125r10
decimal_read_(Text, _, _) :- var(Text), !, throw(error(instantiation_error, decimal/3)).
decimal_read_(Text, _, _) :- \+ atom(Text), !, throw(error(type_error(atom, Text), decimal/3)).
decimal_read_(Text, X, N) :-
    atom_codes(Text, Cs),
    ( Cs = [0'-|Ds] -> Codes = [0'-|Es] ; Ds = Cs, Codes = Es ),
    decimal_digits_(Ds, Es, Es0, Rest), Ds \== Rest,
    ( Rest = [] -> Parts = [] ; Rest = [0'.|Fs], Fs = [_|_], decimal_digits_(Fs, Parts, [], []) ),
    decimal_parts_(Parts, 0, N, Es0, [0'r, 0'1|Zeros], Zeros),
    number_codes(X, Codes).

% the digits in front, with the end of their copy, and what is left
decimal_digits_([C|Cs], [C|Ds], End, Rest) :- C >= 0'0, C =< 0'9, !, decimal_digits_(Cs, Ds, End, Rest).
decimal_digits_(Cs, End, End, Cs).

% how many places there are; those up to the last that is not zero, before a denominator that gets a zero for each
decimal_parts_(Parts, M, N, Es, End, Zeros) :-
    ( decimal_zeros_(Parts) -> decimal_count_(Parts, M, N), Es = End, Zeros = []
    ; Parts = [C|Cs], Es = [C|Fs], Zeros = [0'0|More], L is M + 1, decimal_parts_(Cs, L, N, Fs, End, More) ).

decimal_zeros_([]).
decimal_zeros_([0'0|Cs]) :- decimal_zeros_(Cs).

decimal_count_([], N, N).
decimal_count_([_|Cs], M, N) :- L is M + 1, decimal_count_(Cs, L, N).

%!  round_to(+X, +N, -Y) is det.
%
%   Y is the value of X rounded to N places as by decimal/3, as a number. Overflows only where Y itself doesn't fit.
%   - `?- round_to(1000/3, 2, Y).` gives `Y = 33333r100`, `;`, `no`
%   - `?- round_to(1r8, 2, Y), round_to(-1r8, 2, Z).` gives `Y = 13r100`, `Z = -13r100`, `;`, `no`
%   - `?- round_to(199r200, 2, Y), round_to(7r2, 0, Z).` gives `Y = 1`, `Z = 4`, `;`, `no`
%   - `?- round_to(1r4, 60, Y).` gives `Y = 1r4`, `;`, `no`
%   - `?- round_to(1, a, Y).` gives `error: error(type_error(integer,a),round_to/3)`
round_to(X, N, Y) :-
    places_(X, N, round_to/3, Sign, Whole, Digits),
    places_value_(Digits, Part),
    Y is Sign*(Whole + Part).

places_value_([], 0).
places_value_([D|Ds], V) :- places_value_(Ds, W), V is (D + W)/10.

% the sign of X, and the whole part and N digits of its rounded absolute value
places_(X, N, PI, Sign, Whole, Digits) :-
    V is X,
    ( integer(N) -> true
    ; var(N) -> throw(error(instantiation_error, PI))
    ; throw(error(type_error(integer, N), PI)) ),
    ( N >= 0 -> true ; throw(error(domain_error(not_less_than_zero, N), PI)) ),
    Sign is sign(V), A is abs(V), I is floor(A), F is A - I,
    places_digits_(N, F, Digits, Carry),
    Whole is I + Carry.

% N digits of F, from 0 to below 1, and what their rounding carries over
places_digits_(0, F, [], Carry) :- !, ( F >= 1r2 -> Carry = 1 ; Carry = 0 ).
places_digits_(N, F, [D|Ds], Carry) :-
    places_next_(F, E, Rest),
    M is N - 1,
    places_digits_(M, Rest, Ds, C),
    ( E + C =:= 10 -> D = 0, Carry = 1 ; D is E + C, Carry = 0 ).

% ten times F as a digit and the rest, by doubling: no part is ever larger than F's denominator
places_next_(F, Digit, Rest) :-
    places_sum_(F, F, A, Two),
    places_sum_(Two, Two, B, Four),
    places_sum_(Four, Four, C, Eight),
    places_sum_(Two, Eight, D, Rest),
    Digit is 5*A + 2*B + C + D.

% the sum of two numbers from 0 to below 1, as a whole part and the rest
places_sum_(X, Y, Whole, Rest) :-
    ( X >= 1 - Y -> Whole = 1, Rest is X - (1 - Y) ; Whole = 0, Rest is X + Y ).
