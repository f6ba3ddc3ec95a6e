% A load of at most so many kilograms that is worth the most: each thing is taken whole or left. The best load so far is kept
% as a clause, and loads that cannot come above it are not looked at: sup/2 tells the most that can still come of a
% choice if the things that are open may be taken in parts.
:- use_module(library(clpq)).
:- dynamic(best/2).
:- dynamic(limit/1).

% thing(Name, Kilograms, Worth)
thing(lamp, 5, 12).
thing(stove, 7, 15).
thing(tent, 11, 24).
thing(rope, 2, 4).
thing(radio, 4, 7).

limit(18).

things(Things) :- findall(thing(N, W, V), thing(N, W, V), Things).

best_load(Names, Worth) :-
    ( retract(best(_, _)), fail ; assertz(best([], 0)) ),
    things(Things),
    ( better(Things), fail ; best(Names, Worth) ).

% finds a load that is worth more than the best so far, which it replaces
better(Things) :-
    shares(Things, Shares, Worth),
    decided(Things, Shares, Worth, Names),
    once(retract(best(_, _))),
    assertz(best(Names, Worth)).

% a share of each thing within the limit, and what they are worth
shares(Things, Shares, Worth) :-
    limit(L), {Weight =< L},
    summed(Things, Shares, Weight, Worth).

summed([], [], 0, 0).
summed([thing(_, W, V)|Ts], [X|Xs], Weight, Worth) :-
    {X >= 0, X =< 1, Weight = W*X + Rest, Worth = V*X + Others},
    summed(Ts, Xs, Rest, Others).

decided([], [], Worth, []) :- best(_, Least), Worth > Least.
decided([thing(N, _, _)|Ts], [X|Xs], Worth, Names) :-
    sup(Worth, Most), best(_, Least), Most > Least,
    ( X = 1, Names = [N|More] ; X = 0, Names = More ),
    decided(Ts, Xs, Worth, More).

% the weight of a thing that is there
weight(Name, W) :- thing(Name, W, _), !.
weight(Name, _) :- throw(no_thing(Name)).
