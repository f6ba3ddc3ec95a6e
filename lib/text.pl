% Texts: what is written by a pattern, and numbers as atoms, written in what clpq itself has.
%
%   clpq run lib/numbers.pl lib/text.pl plan.pl
%
% The predicates are those of SWI-Prolog by these names and do in these modes what they do there. `~Nf` and `~Nd` want numbers.pl too. A
% program that defines one of these itself adds clauses to it: its lines are then written twice. Helpers have names that end in `_`.
% How modes and queries are to be read stands at the top of lists.pl.

%!  writeln(@X) is det.
%
%   Writes X as write/1 does, and a line end.
%   - `?- writeln('a b').` gives `a b`, `true`, `;`, `no`
writeln(X) :- write(X), nl.

%!  tab(+N) is det.
%
%   Writes as many blanks as the value of N says, and none for a negative one. Errors: those of arithmetic, type_error(integer, N).
%   - `?- write(a), tab(1 + 2), writeln(b).` gives `a   b`, `true`, `;`, `no`
%   - `?- tab(-1).` gives `true`, `;`, `no`
%   - `?- tab(1r2).` gives `error: error(type_error(integer,1r2),tab/1)`
tab(N) :-
    M is N,
    ( integer(M) -> tab_(M) ; throw(error(type_error(integer, M), tab/1)) ).

tab_(N) :- N =< 0, !.
tab_(N) :- write(' '), M is N - 1, tab_(M).

%!  atom_number(?A, ?N) is semidet.
%
%   N is the number that the text of A is read as, with a `-` or `+` in front and nothing else round it; A is the text of N. Fails where A
%   is no number of clpq: also for one with a decimal point, which decimal/3 reads, and for one past 128 bits. Errors:
%   instantiation_error, type_error(atom, A), type_error(number, N).
%   - `?- atom_number('42', N).` gives `N = 42`, `;`, `no`
%   - `?- atom_number('-2r4', N).` gives `N = -1r2`, `;`, `no`
%   - `?- atom_number(A, 1r3).` gives `A = '1r3'`, `;`, `no`
%   - `?- atom_number('12a', N).` gives `no`
%   - `?- atom_number(' 1', N).` gives `no`
%   - `?- atom_number(A, N).` gives `error: error(instantiation_error,atom_number/2)`
%   - `?- atom_number(12, N).` gives `error: error(type_error(atom,12),atom_number/2)`
atom_number(A, N) :- atom(A), !, atom_codes(A, Cs), atom_number_(Cs, Ds), catch(number_codes(M, Ds), error(syntax_error(_), _), fail), N = M.
atom_number(A, _) :- nonvar(A), !, throw(error(type_error(atom, A), atom_number/2)).
atom_number(_, N) :- var(N), !, throw(error(instantiation_error, atom_number/2)).
atom_number(A, N) :- number(N), !, number_codes(N, Cs), atom_codes(A, Cs).
atom_number(_, N) :- throw(error(type_error(number, N), atom_number/2)).

% no blank in front, and no `+`
atom_number_([0'+, C|Cs], [C|Cs]) :- !, atom_number_digit_(C).
atom_number_([0'-, C|Cs], [0'-, C|Cs]) :- !, atom_number_digit_(C).
atom_number_([C|Cs], [C|Cs]) :- atom_number_digit_(C).

atom_number_digit_(C) :- C >= 0'0, C =< 0'9.

%!  format(+Pattern) is det.
%!  format(+Pattern, +Args) is det.
%
%   Writes Pattern, an atom or a list of codes or characters, with the arguments in their places. Args that is no list is the one argument.
%
%   | Directive | What it writes |
%   |---|---|
%   | `~w`, `~p`, `~q` | the next argument as write/1 does; as writeq/1 |
%   | `~a` | an atom or a number |
%   | `~d`, `~Nd` | the whole number that it comes to; with its last N digits behind a point |
%   | `~Nf`, `~f` | what it comes to, as decimal/3 shows it with N places, or with 6: exact, a half away from zero, and a zero without a sign (SWI-Prolog writes `-0.00`) |
%   | `~s` | a text: a list of codes or of characters, or an atom |
%   | `~n`, `~Nn`, `~~` | a line end, N of them; `~` |
%
%   Errors: error(format('not enough arguments'), _), error(format('too many arguments'), _), error(format_argument_type(Directive, Argument),
%   _), error(existence_error(format_character, C), _) for another directive, type_error(text, Pattern), instantiation_error, and those of
%   arithmetic. What stands before the place of the error is written.
%   - `?- format('~w costs ~2f~n', [bolt, 5r2]).` gives `bolt costs 2.50`, `true`, `;`, `no`
%   - `?- format("~a ~q ~d~n", [b, 'B', 2 + 3]).` gives `b 'B' 5`, `true`, `;`, `no`
%   - `?- format('~2d ~2d~n', [1234, -5]).` gives `12.34 -0.05`, `true`, `;`, `no`
%   - `?- format('~s~~~s~n', ["ab", [c,d]]).` gives `ab~cd`, `true`, `;`, `no`
%   - `?- format('~0f ~1f ~f~n', [5r2, -1r4, 2r3]).` gives `3 -0.3 0.666667`, `true`, `;`, `no`
%   - `?- format('~w~n', f(X)).` gives `f(_1)`, `true`, `;`, `no`
%   - `?- format('done~2n').` gives `done`, ``, `true`, `;`, `no`
%   - `?- format('~w', []).` gives `error: error(format('not enough arguments'),format/2)`
%   - `?- format('~n', [a]).` gives ``, `error: error(format('too many arguments'),format/2)`
%   - `?- format('~a', [f(x)]).` gives `error: error(format_argument_type(a,f(x)),format/2)`
%   - `?- format('~d', [1r2]).` gives `error: error(format_argument_type(d,1r2),format/2)`
%   - `?- format('~y', [a]).` gives `error: error(existence_error(format_character,y),format/2)`
format(Pattern) :- format(Pattern, []).

format(Pattern, Args) :-
    ( var(Pattern) -> throw(error(instantiation_error, format/2)) ; true ),
    ( format_text_(Pattern, Cs) -> true ; throw(error(type_error(text, Pattern), format/2)) ),
    ( is_list(Args) -> As = Args ; As = [Args] ),
    format_(Cs, As).

% the codes of a text
format_text_(T, []) :- T == [], !.
format_text_(T, Cs) :- atom(T), !, atom_codes(T, Cs).
format_text_(T, Cs) :- is_list(T), format_codes_(T, Cs).

format_codes_([], []).
format_codes_([T|Ts], [C|Cs]) :-
    ( integer(T) -> T >= 0, C = T ; atom(T), atom_length(T, 1), char_code(T, C) ),
    format_codes_(Ts, Cs).

format_([], []) :- !.
format_([], _) :- throw(error(format('too many arguments'), format/2)).
format_([0'~|Cs], As) :- !, format_number_(Cs, none, N, Ds), format_directive_(Ds, N, As).
format_(Cs, As) :- format_plain_(Cs, Ps, Rest), atom_codes(A, Ps), write(A), format_(Rest, As).

% what stands before the next directive
format_plain_([C|Cs], [C|Ps], Rest) :- C =\= 0'~, !, format_plain_(Cs, Ps, Rest).
format_plain_(Cs, [], Cs).

% the number before a directive's letter, or none
format_number_([C|Cs], M, N, Ds) :-
    C >= 0'0, C =< 0'9, !,
    ( M == none -> L is C - 0'0 ; L is 10*M + C - 0'0 ),
    format_number_(Cs, L, N, Ds).
format_number_(Cs, N, N, Cs).

format_directive_([], _, _) :- throw(error(existence_error(format_character, ''), format/2)).
format_directive_([C|Cs], N, As) :-
    char_code(D, C),
    ( format_alone_(D, N) -> format_(Cs, As)
    ; \+ format_takes_(D) -> throw(error(existence_error(format_character, D), format/2))
    ; As = [A|Bs] -> format_argument_(D, N, A), format_(Cs, Bs)
    ; throw(error(format('not enough arguments'), format/2)) ).

% directives without an argument
format_alone_(n, N) :- ( N == none -> nl ; format_lines_(N) ).
format_alone_(~, _) :- write(~).

format_lines_(0) :- !.
format_lines_(N) :- nl, M is N - 1, format_lines_(M).

% directives with one
format_takes_(w).
format_takes_(p).
format_takes_(q).
format_takes_(a).
format_takes_(d).
format_takes_(f).
format_takes_(s).

format_argument_(w, _, A) :- write(A).
format_argument_(p, _, A) :- writeq(A).
format_argument_(q, _, A) :- writeq(A).
format_argument_(a, _, A) :- format_check_(atomic(A), a, A), write(A).
format_argument_(d, N, A) :-
    V is A,
    format_check_(integer(V), d, A),
    ( N == none -> write(V) ; N =:= 0 -> write(V) ; format_power_(N, 1, P), W is V/P, decimal(W, N, T), write(T) ).
format_argument_(f, N, A) :-
    V is A,
    ( N == none -> decimal(V, 6, T) ; decimal(V, N, T) ),
    write(T).
format_argument_(s, _, A) :- format_check_(format_text_(A, Cs), s, A), atom_codes(T, Cs), write(T).

format_check_(G, D, A) :- ( call(G) -> true ; throw(error(format_argument_type(D, A), format/2)) ).

format_power_(0, P, P) :- !.
format_power_(N, P, R) :- Q is 10*P, M is N - 1, format_power_(M, Q, R).
