% Naive reverse of a list of 30, N times, by an interpreter of rules.
solve(true) :- !.
solve((A, B)) :- !, solve(A), solve(B).
solve(G) :- rule(G, B), solve(B).

rule(append([], L, L), true).
rule(append([H|T], L, [H|R]), append(T, L, R)).
rule(reverse([], []), true).
rule(reverse([H|T], R), (reverse(T, S), append(S, [H], R))).

numbers(N, N, [N]) :- !.
numbers(I, N, [I|T]) :- J is I + 1, numbers(J, N, T).

times(0, _) :- !.
times(N, L) :- solve(reverse(L, _)), M is N - 1, times(M, L).

bench(N) :- numbers(1, 30, L), times(N, L), solve(reverse(L, [X|_])), write(X), nl.
