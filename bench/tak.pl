% Takeuchi's function of 3*N, 2*N and N.
tak(X, Y, Z, A) :- X =< Y, !, A = Z.
tak(X, Y, Z, A) :-
    X1 is X - 1, Y1 is Y - 1, Z1 is Z - 1,
    tak(X1, Y, Z, A1), tak(Y1, Z, X, A2), tak(Z1, X, Y, A3),
    tak(A1, A2, A3, A).

bench(N) :- X is 3 * N, Y is 2 * N, tak(X, Y, N, A), write(A), nl.
