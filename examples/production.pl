% How much to make of two products: plan(X, Y, P) holds of each plan that the hours allow, with its profit P.
% maximize/1 leaves the best plans alone; sup/2 and inf/2 tell how far something reaches and leave all plans.
% A strict bound stays strict: a profit that plans come near to and none reaches is told by sup/2 and refused by maximize/1.
plan(X, Y, P) :-
    {X >= 0, Y >= 0},
    {2*X + Y =< 100},      % hours at the lathe
    {X + 3*Y =< 91},       % hours at the press
    {P = 30*X + 40*Y}.
