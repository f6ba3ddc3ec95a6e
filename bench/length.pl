% A list of N made and measured.
numbers(N, N, []) :- !.
numbers(I, N, [I|T]) :- J is I + 1, numbers(J, N, T).

len([], 0).
len([_|T], N) :- len(T, M), N is M + 1.

bench(N) :- numbers(0, N, L), len(L, M), write(M), nl.
