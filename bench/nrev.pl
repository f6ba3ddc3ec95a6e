% Naive reverse of a list of 30, N times: 496 inferences each.
append([], L, L).
append([H|T], L, [H|R]) :- append(T, L, R).

reverse([], []).
reverse([H|T], R) :- reverse(T, S), append(S, [H], R).

numbers(N, N, [N]) :- !.
numbers(I, N, [I|T]) :- J is I + 1, numbers(J, N, T).

times(0, _) :- !.
times(N, L) :- reverse(L, _), M is N - 1, times(M, L).

bench(N) :- numbers(1, 30, L), times(N, L), reverse(L, [X|_]), write(X), nl.
