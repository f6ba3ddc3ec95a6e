% All numbers from 1 to N in one list, and their sum.
from(N, _, N).
from(I, N, K) :- I < N, J is I + 1, from(J, N, K).

sum([], S, S).
sum([X|Xs], S, T) :- U is S + X, sum(Xs, U, T).

bench(N) :- findall(K, from(1, N, K), Ks), sum(Ks, 0, S), write(S), nl.
