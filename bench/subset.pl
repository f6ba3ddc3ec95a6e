% A subset of N numbers with a given sum, by constraints: each number is in or out.
:- use_module(library(clpq)).

numbers(N, N, []) :- !.
numbers(I, N, [W|T]) :- W is 3 * I + 7, J is I + 1, numbers(J, N, T).

sum([], [], 0).
sum([W|Ws], [B|Bs], S) :- {S = W * B + R, B >= 0, B =< 1}, sum(Ws, Bs, R).

pick([]).
pick([B|Bs]) :- in_or_out(B), pick(Bs).

in_or_out(B) :- {B = 0}.
in_or_out(B) :- {B = 1}.

bench(N) :- numbers(0, N, Ws), sum(Ws, Bs, S), {S = 100}, pick(Bs), write(Bs), nl.
