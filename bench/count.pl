% A count to N, which leaves nothing behind.
count(N, N) :- !.
count(I, N) :- J is I + 1, count(J, N).

bench(N) :- count(0, N), write(N), nl.
