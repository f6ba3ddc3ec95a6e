% A small plan.
price(hub, 1r4).
price(rim, 2).
cost(wheel, Cost) :- price(hub, Hub), price(rim, Rim), {Cost = Hub+Rim}.
weight(wheel, Weight) :- mass(wheel, Weight, Unit).
:- dynamic stock/2.
enough(Part) :- stock(Part, N), {N >= 10}.

price(spoke, 0.25).
price(tyre, 3).
