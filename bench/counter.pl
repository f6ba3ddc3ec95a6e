% A counter that is kept as a clause: it is taken out and put back greater, N times.
:- dynamic(counter/1).

more :- retract(counter(N)), M is N + 1, assertz(counter(M)).

times(0) :- !.
times(N) :- more, M is N - 1, times(M).

bench(N) :- assertz(counter(0)), times(N), counter(C), write(C), nl.
