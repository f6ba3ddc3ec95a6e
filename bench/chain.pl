% A chain of N inequalities, and the bounds of its last variable.
:- use_module(library(clpq)).

chain(0, X, X) :- !.
chain(N, X, Z) :- {Y >= X + 1, Y =< 1000000}, M is N - 1, chain(M, Y, Z).

bench(N) :- {X >= 1}, chain(N, X, Z), {Z =< N + 1}, write(X), write(' '), write(Z), nl.
