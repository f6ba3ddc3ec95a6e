% Quick sort with an accumulator, of N numbers that come one from another; the sum of each with its place.
numbers(0, _, []) :- !.
numbers(N, X, [X|Xs]) :- Y is (X * 421 + 1663) mod 7875, M is N - 1, numbers(M, Y, Xs).

sorted([], Ys, Ys).
sorted([X|Xs], Ys, Zs) :- parted(Xs, X, Less, More), sorted(More, Us, Zs), sorted(Less, Ys, [X|Us]).

parted([], _, [], []).
parted([X|Xs], Y, [X|Less], More) :- X =< Y, !, parted(Xs, Y, Less, More).
parted([X|Xs], Y, Less, [X|More]) :- parted(Xs, Y, Less, More).

sum([], _, S, S).
sum([X|Xs], N, S, T) :- U is S + N * X, M is N + 1, sum(Xs, M, U, T).

bench(N) :- numbers(N, 7, Xs), sorted(Xs, Ys, []), sum(Ys, 1, 0, S), write(S), nl.
