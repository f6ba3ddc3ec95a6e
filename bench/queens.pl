% All solutions of N queens, counted by failing.
select(X, [X|T], T).
select(X, [H|T], [H|R]) :- select(X, T, R).

numbers(N, N, [N]) :- !.
numbers(I, N, [I|T]) :- J is I + 1, numbers(J, N, T).

queens([], Qs, Qs).
queens(Left, Placed, Qs) :- select(Q, Left, Rest), safe(Placed, Q, 1), queens(Rest, [Q|Placed], Qs).

safe([], _, _).
safe([Q|Qs], P, D) :- P =\= Q + D, P =\= Q - D, E is D + 1, safe(Qs, P, E).

all(N) :- numbers(1, N, L), queens(L, [], _), write(q), fail.
all(_).

bench(N) :- all(N), nl.
