% Four derivatives, N times (Warren 1977); the last one.
d(U+V, X, DU+DV) :- !, d(U, X, DU), d(V, X, DV).
d(U-V, X, DU-DV) :- !, d(U, X, DU), d(V, X, DV).
d(U*V, X, DU*V+U*DV) :- !, d(U, X, DU), d(V, X, DV).
d(U/V, X, (DU*V-U*DV)/(V^2)) :- !, d(U, X, DU), d(V, X, DV).
d(U^N, X, DU*N*U^M) :- integer(N), !, M is N - 1, d(U, X, DU).
d(-U, X, -DU) :- !, d(U, X, DU).
d(exp(U), X, exp(U)*DU) :- !, d(U, X, DU).
d(log(U), X, DU/U) :- !, d(U, X, DU).
d(X, X, 1) :- !.
d(_, _, 0).

once_each(D) :-
    d(((((((((x*x)*x)*x)*x)*x)*x)*x)*x)*x, x, _),
    d(((((((((x/x)/x)/x)/x)/x)/x)/x)/x)/x, x, _),
    d(log(log(log(log(log(log(log(log(log(log(x)))))))))), x, _),
    d((x+1)*((x^2+2)*(x^3+3)), x, D).

times(1, D) :- !, once_each(D).
times(N, D) :- once_each(_), M is N - 1, times(M, D).

bench(N) :- times(N, D), write(D), nl.
