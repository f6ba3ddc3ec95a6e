% When a house can be done, which tasks are critical, and how much slack the others have.
% task(Name, Days, Before): a task takes so many days and begins when those before it have ended.
% At the earliest end the critical tasks have one day each, as values, and the slack of the others stands as bounds beside them.
task(dig, 3, []).
task(order, 5, []).
task(lay, 4, [dig]).
task(roof, 6, [lay, order]).
task(paint, 3, [wire, roof]).

% The days on which the tasks begin, the days that the wiring takes, and the day of the end.
house(Dig, Order, Lay, Wire, Roof, Paint, Wiring, End) :-
    All = [b(dig, Dig), b(order, Order), b(lay, Lay), b(wire, Wire), b(roof, Roof), b(paint, Paint)],
    {Wiring >= 0},
    begun(All, All, Wiring, End).

begun([], _, _, _).
begun([b(Name, Begin)|Rest], All, Wiring, End) :-
    days(Name, Wiring, Days, Before),
    {Begin >= 0, Begin + Days =< End},
    behind(Before, Begin, All, Wiring),
    begun(Rest, All, Wiring, End).

days(wire, Wiring, Wiring, [lay]) :- !.
days(Name, _, Days, Before) :- task(Name, Days, Before).

behind([], _, _, _).
behind([Name|Names], Begin, All, Wiring) :-
    member(b(Name, Other), All), !,
    days(Name, Wiring, Days, _),
    {Begin >= Other + Days},
    behind(Names, Begin, All, Wiring).

member(X, [X|_]).
member(X, [_|Xs]) :- member(X, Xs).
