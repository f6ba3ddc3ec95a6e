% Insertion sort of N terms by the standard order; the first and the last of them.
terms(0, _, []) :- !.
terms(N, X, [at(K, f(X, [N]))|Ts]) :- K is X mod 17, Y is (X * 421 + 1663) mod 7875, M is N - 1, terms(M, Y, Ts).

sorted([], Ys, Ys).
sorted([X|Xs], Ys, Zs) :- inserted(Ys, X, Us), sorted(Xs, Us, Zs).

inserted([], X, [X]).
inserted([Y|Ys], X, [X,Y|Ys]) :- X @< Y, !.
inserted([Y|Ys], X, [Y|Zs]) :- inserted(Ys, X, Zs).

last([X], X) :- !.
last([_|Xs], X) :- last(Xs, X).

bench(N) :- terms(N, 7, Ts), sorted(Ts, [], Us), Us = [U|_], last(Us, V), write(U-V), nl.
