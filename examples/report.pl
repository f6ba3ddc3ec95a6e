% Invoices with two decimals: amounts are exact fractions, and each line and the tax are rounded to the cent, a half away from zero, so
% that what is written adds up. It stands on the library: clpq run ../lib/prelude.pl report.pl
% The clauses that give an amount also say how many pieces an amount is for, with the rebate and without.
:- use_module(library(clpq)).

% article(Name, Price), sold(Customer, Article, Pieces)
article(bolt, 1r4).
article(hinge, 37r10).
article(lock, 1895r100).

sold(mill, bolt, 150).
sold(mill, lock, 2).
sold(farm, hinge, 25).
sold(farm, bolt, 33).

% a tenth less from 20 pieces on
amount(Article, N, Amount) :- article(Article, Price), {N >= 20, Amount = 9r10*Price*N}.
amount(Article, N, Amount) :- article(Article, Price), {N < 20, Amount = Price*N}.

invoice(Customer) :-
    writeln(Customer),
    findall(Cents, line(Customer, Cents), Lines),
    sum_list(Lines, Net),
    round_to(Net*19r100, 2, Tax),
    format('  net ~2f, tax ~2f, in all ~2f~n', [Net, Tax, Net + Tax]).

line(Customer, Cents) :-
    sold(Customer, Article, N),
    amount(Article, N, Amount),
    round_to(Amount, 2, Cents),
    format('  ~d ~a: ~2f~n', [N, Article, Cents]).
