% What to mix of four fuels: A, B, C and D are their parts in a litre of 95 octane or more with 2 grams of sulphur or less.
% f(Octane, Sulphur, Price) says what a litre of each has and costs; minimize/1 finds the cheapest mixture.
% The bounds are inequalities, and together they imply equations: no D, and as much A as C. The answer says so.
blend(A, B, C, D, Price) :-
    mixture([A, B, C, D], [f(90, 1, 2), f(95, 2, 4), f(100, 3, 5), f(97, 3, 1)], 1, Octane, Sulphur, Price),
    {Octane >= 95, Sulphur =< 2}.

mixture([], [], 0, 0, 0, 0).
mixture([X|Xs], [f(O, S, P)|Fs], Whole, Octane, Sulphur, Price) :-
    {X >= 0, Whole = W + X, Octane = Os + O*X, Sulphur = Ss + S*X, Price = Ps + P*X},
    mixture(Xs, Fs, W, Os, Ss, Ps).
