% What a project of 40 tasks costs at least by the days that it may take. Days and costs are those of all plans at once; the
% least cost is a curve of straight pieces, and its corners are found exactly, each by a few questions of inf/2 and sup/2.
% The rows of so many plans would be too many to write: the queries give what isn't wanted a name that begins with `_`.
:- use_module(library(clpq)).

% task(Number, Usual, Least, Price, Before): takes its usual days, or fewer down to the least, each day less for the price, and begins
% when those before it have ended.
task(1, 11, 7, 29, []).
task(2, 11, 8, 18, []).
task(3, 7, 6, 27, []).
task(4, 12, 9, 22, []).
task(5, 6, 6, 0, []).
task(6, 5, 5, 0, [2, 3]).
task(7, 6, 2, 2, [4, 5]).
task(8, 4, 4, 0, [1, 5]).
task(9, 4, 3, 12, [5]).
task(10, 12, 11, 22, [2, 5]).
task(11, 11, 6, 10, [6, 9]).
task(12, 9, 8, 18, [6, 10]).
task(13, 5, 2, 5, [6, 10]).
task(14, 4, 4, 0, [6, 9]).
task(15, 10, 7, 4, [6]).
task(16, 8, 6, 2, [12, 13]).
task(17, 4, 4, 0, [6, 11, 12]).
task(18, 7, 4, 18, [12, 14]).
task(19, 10, 10, 0, [12]).
task(20, 8, 8, 0, [10, 12, 14]).
task(21, 5, 5, 0, [17]).
task(22, 4, 2, 12, [17]).
task(23, 7, 7, 0, [12, 16, 19]).
task(24, 6, 2, 17, [18, 20]).
task(25, 8, 7, 28, [12, 17, 19]).
task(26, 7, 2, 14, [20, 22, 25]).
task(27, 5, 5, 0, [21, 25]).
task(28, 7, 2, 24, [25]).
task(29, 11, 9, 18, [23, 24]).
task(30, 12, 7, 29, [19, 21]).
task(31, 7, 2, 2, [26, 30]).
task(32, 7, 7, 0, [28]).
task(33, 12, 8, 6, [27]).
task(34, 9, 4, 25, [24, 28]).
task(35, 4, 3, 13, [27, 30]).
task(36, 11, 11, 0, [26, 31, 33]).
task(37, 5, 2, 19, [26, 33, 35]).
task(38, 9, 7, 4, [31, 32]).
task(39, 10, 10, 0, [31, 34]).
task(40, 10, 7, 20, [31, 35]).

% a plan that ends within so many days, and what its haste costs
plan(Days, Cost) :-
    findall(task(N, U, L, P, B), task(N, U, L, P, B), Tasks),
    planned(Tasks, [], Days, Cost).

planned([], _, _, 0).
planned([task(N, Usual, Least, Price, Before)|Tasks], Ends, Days, Cost) :-
    {Begin >= 0, Least =< Took, Took =< Usual, End = Begin + Took, End =< Days},
    {Cost = Price*(Usual - Took) + Rest},
    behind(Before, Ends, Begin),
    planned(Tasks, [N-End|Ends], Days, Rest).

behind([], _, _).
behind([N|Ns], Ends, Begin) :- ends(Ends, N, End), {Begin >= End}, behind(Ns, Ends, Begin).

ends([N-End|_], N, End) :- !.
ends([_|Ends], N, End) :- ends(Ends, N, End).

% the corners of the curve as Days-Cost, the fewest days first
curve(Corners) :-
    plan(Days, Cost),
    inf(Days, Fast), least(Days = Fast, Cost, High),
    inf(Cost, Low), least(Cost = Low, Days, Slow),
    corners(Fast-High, Slow-Low, Days, Cost, Corners, [Slow-Low]).

% the least of E where C holds too
least(C, E, Least) :- findall(I, ({C}, inf(E, I)), [Least]).

% the corners from A on and before B, with Rest behind them: no plan lies below the line from A to B, or those farthest below it are
% a piece of the curve, or a corner
corners(A, A, _, _, Rest, Rest) :- !.
corners(A, B, Days, Cost, Corners, Rest) :-
    A = D-C, B = E-K,
    Level = (C - K)*Days + (E - D)*Cost,
    inf(Level, Least),
    ( Least =:= (C - K)*D + (E - D)*C -> Corners = [A|Rest]
    ; findall(F-G, ({Level = Least}, inf(Days, F), sup(Days, G)), [F-G]),
      X is (Least - (C - K)*F)/(E - D), Y is (Least - (C - K)*G)/(E - D),
      corners(A, F-X, Days, Cost, Corners, Middle),
      ( F =:= G -> Middle = Last ; Middle = [F-X|Last] ),
      corners(G-Y, B, Days, Cost, Last, Rest) ).
