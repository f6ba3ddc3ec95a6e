% The zebra puzzle, N times.
member(X, [X|_]).
member(X, [_|T]) :- member(X, T).

right_of(X, Y, [Y,X|_]).
right_of(X, Y, [_|T]) :- right_of(X, Y, T).

next_to(X, Y, L) :- right_of(X, Y, L).
next_to(X, Y, L) :- right_of(Y, X, L).

zebra(Owner) :-
    Houses = [house(_,norwegian,_,_,_),_,house(_,_,_,milk,_),_,_],
    member(house(red,english,_,_,_), Houses),
    member(house(green,_,_,coffee,_), Houses),
    member(house(_,spanish,dog,_,_), Houses),
    member(house(_,ukrainian,_,tea,_), Houses),
    right_of(house(green,_,_,_,_), house(ivory,_,_,_,_), Houses),
    member(house(_,_,snails,_,old_gold), Houses),
    member(house(yellow,_,_,_,kools), Houses),
    next_to(house(_,_,_,_,chesterfield), house(_,_,fox,_,_), Houses),
    next_to(house(_,_,_,_,kools), house(_,_,horse,_,_), Houses),
    member(house(_,_,_,orange_juice,lucky_strike), Houses),
    member(house(_,japanese,_,_,parliament), Houses),
    next_to(house(_,norwegian,_,_,_), house(blue,_,_,_,_), Houses),
    member(house(_,Owner,zebra,_,_), Houses).

times(0) :- !.
times(N) :- zebra(_), !, M is N - 1, times(M).

bench(N) :- times(N), zebra(Owner), write(Owner), nl.
