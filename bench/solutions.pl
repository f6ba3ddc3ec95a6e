% All numbers of N digits as so many solutions in one list, from facts alone: no loop makes them.
digit(0).
digit(1).
digit(2).
digit(3).
digit(4).
digit(5).
digit(6).
digit(7).
digit(8).
digit(9).

number(3, C) :- digit(_), digit(_), digit(C).
number(4, D) :- digit(_), digit(_), digit(_), digit(D).
number(5, E) :- digit(_), digit(_), digit(_), digit(_), digit(E).
number(6, F) :- digit(_), digit(_), digit(_), digit(_), digit(_), digit(F).

bench(N) :- findall(K, number(N, K), [First|_]), write(First), nl.
