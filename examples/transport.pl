% What to carry from two mines, A and B, to three mills, so that each mill gets what it needs and no mine gives more than it has.
% ship(A1, A2, A3, B1, B2, B3, Cost): the loads and what they cost; A has 40, B has 50, the mills need 20, 30 and 40.
% Where several plans cost least the answer has them all, as equations and bounds. A solver of linear programs names one.
ship(A1, A2, A3, B1, B2, B3, Cost) :-
    {A1 >= 0, A2 >= 0, A3 >= 0, B1 >= 0, B2 >= 0, B3 >= 0},
    {A1 + A2 + A3 =< 40, B1 + B2 + B3 =< 50},
    {A1 + B1 = 20, A2 + B2 = 30, A3 + B3 = 40},
    {Cost = 4*A1 + 6*A2 + 8*A3 + 2*B1 + 5*B2 + 7*B3}.
