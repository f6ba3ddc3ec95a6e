% What an option costs where nobody gains without risk: a table of prices by strikes, in a market of two later prices or three.
% market(Name, Now, Interest, Later): the price of a share now, the interest of the period, and the prices that it may have then.
% In the second market a price is free within bounds that are strict: at a bound itself one could gain without risk.
market(two, 100, 1r20, [120, 90]).
market(three, 100, 1r20, [120, 100, 90]).

strike(90).
strike(100).
strike(110).

% What an option to buy or to sell at the strike K pays where the share costs S.
pays(call, K, S, Pay) :- {Pay = max(S - K, 0)}.
pays(put, K, S, Pay) :- {Pay = max(K - S, 0)}.

% Each later price has a weight above 0; in weighted mean the share gains the interest, and so does the option.
worth(Market, Kind, K, Price) :-
    market(Market, Now, I, Later),
    weighted(Later, Kind, K, 1, Share, Pay),
    {Share = Now*(1 + I), Pay = Price*(1 + I)}.

weighted([], _, _, 0, 0, 0).
weighted([S|Ss], Kind, K, Weight, Share, Pay) :-
    pays(Kind, K, S, P),
    {Q > 0, Weight = W1 + Q, Share = S1 + Q*S, Pay = P1 + Q*P},
    weighted(Ss, Kind, K, W1, S1, P1).
