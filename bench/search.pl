% Backtracking over inequalities: tasks of given lengths on one machine, in every order that meets the deadline.
:- use_module(library(clpq)).

before(S, D, T) :- {S + D =< T}.

apart(S, D, T, _) :- before(S, D, T).
apart(S, _, T, E) :- before(T, E, S).

each_apart([], _, _).
each_apart([task(T, E)|Ts], S, D) :- apart(S, D, T, E), each_apart(Ts, S, D).

all_apart([]).
all_apart([task(S, D)|Ts]) :- each_apart(Ts, S, D), all_apart(Ts).

within([], _).
within([task(S, D)|Ts], End) :- {S >= 0, S + D =< End}, within(Ts, End).

tasks(0, []) :- !.
tasks(N, [task(_, D)|Ts]) :- D is N + 1, M is N - 1, tasks(M, Ts).

all(N, End) :- tasks(N, Ts), within(Ts, End), all_apart(Ts), write(o), fail.
all(_, _).

bench(N) :- End is N * (N + 3) / 2, all(N, End), nl.
