% Lists, goals over lists and over all solutions, written in what clpq itself has.
%
%   clpq run lib/lists.pl plan.pl
%
% The predicates are those of SWI-Prolog by these names and do in these modes what they do there, over exact fractions and under
% constraints: an element may be a variable with constraints, each step is tried against what was told, and findall/3 and
% what stands on it copy values and no constraints. A program that defines one of them itself, as its own member/2, adds clauses
% to it: its answers then come twice. Take the clauses out of the program, or leave this file away. Helpers have names that
% end in `_`.
%
% Modes: `+` is given, `-` is found, `?` either, `:` a goal, to which arguments are added. `det` has one solution, `semidet` at most
% one, `nondet` any number, `multi` at least one. Each query in these comments is run by the gate, and writes what stands behind it.

%!  append(?Xs, ?Ys, ?Zs) is nondet.
%
%   Zs is Xs and then Ys. Ends where Xs or Zs has an end.
%   - `?- append([a], [b,c], Zs).` gives `Zs = [a,b,c]`, `;`, `no`
%   - `?- append(Xs, [c], [a,b,c]).` gives `Xs = [a,b]`, `;`, `no`
%   - `?- append(Xs, Ys, [a]).` gives `Xs = []`, `Ys = [a]`, `;`, `Xs = [a]`, `Ys = []`, `;`, `no`
%   - `?- {X + Y = 3}, append(_, [X,1], [2,Y]).` gives `X = 2`, `Y = 1`, `;`, `no`
append([], Ys, Ys).
append([X|Xs], Ys, [X|Zs]) :- append(Xs, Ys, Zs).

%!  member(?X, ?Xs) is nondet.
%
%   X is an element of Xs, the first one first.
%   - `?- member(X, [a,b]).` gives `X = a`, `;`, `X = b`, `;`, `no`
%   - `?- {X > 2}, member(X, [1,3,2,5]).` gives `X = 3`, `;`, `X = 5`, `;`, `no`
%   - `?- member(a, []).` gives `no`
member(X, [Y|Ys]) :- member_(Ys, Y, X).

member_(_, X, X).
member_([Y|Ys], _, X) :- member_(Ys, Y, X).

%!  memberchk(?X, ?Xs) is semidet.
%
%   The first solution of member/2.
%   - `?- memberchk(b, [a,b,b]).` gives `true`, `;`, `no`
%   - `?- memberchk(k-V, [j-1,k-2,k-3]).` gives `V = 2`, `;`, `no`
%   - `?- memberchk(X, []).` gives `no`
memberchk(X, Xs) :- member(X, Xs), !.

%!  length(?Xs, ?N) is nondet.
%
%   Xs has N elements: `det` for a list, or for an open one with a given N; else the open list gets more and more elements, and ends
%   where constraints bound N above (SWI-Prolog goes on). Errors: type_error(integer, N), domain_error(not_less_than_zero, N),
%   type_error(list, Xs).
%   - `?- length([a,b], N).` gives `N = 2`, `;`, `no`
%   - `?- length(Xs, 2).` gives `Xs = [_1,_2]`, `;`, `no`
%   - `?- length([a|Xs], 1).` gives `Xs = []`, `;`, `no`
%   - `?- length([a,b|_], 1).` gives `no`
%   - `?- {N >= 1, N < 3}, length(Xs, N).` gives `N = 1`, `Xs = [_1]`, `;`, `N = 2`, `Xs = [_1,_2]`, `;`, `no`
%   - `?- length(a, _).` gives `error: error(type_error(list,a),length/2)`
%   - `?- length(_, -1).` gives `error: error(domain_error(not_less_than_zero,-1),length/2)`
%   - `?- length([a|b], a).` gives `error: error(type_error(integer,a),length/2)`
%   - `?- length([a], 1r2).` gives `error: error(type_error(integer,1r2),length/2)`
length(Xs, N) :-
    length_walk_(Xs, 0, K, End),
    ( var(N) -> true
    ; \+ integer(N) -> throw(error(type_error(integer, N), length/2))
    ; N < 0 -> throw(error(domain_error(not_less_than_zero, N), length/2))
    ; true ),
    ( nonvar(End), End \== [] -> throw(error(type_error(list, Xs), length/2)) ; true ),
    length_end_(End, K, N).

% the elements that are there, and what stands behind them
length_walk_(Xs, K, K, Xs) :- var(Xs), !.
length_walk_([_|Xs], J, K, End) :- !, I is J + 1, length_walk_(Xs, I, K, End).
length_walk_(End, K, K, End).

length_end_(End, K, N) :- End == [], !, N = K.
length_end_(End, K, N) :- integer(N), !, K =< N, M is N - K, length_fill_(M, End).
length_end_(End, _, N) :- End == N, !, fail.
length_end_(End, K, N) :- sup(N, S), !, Most is floor(S), length_most_(End, K, Most, N).
length_end_(End, K, N) :- length_more_(End, K, N).

length_fill_(0, []) :- !.
length_fill_(M, [_|Xs]) :- L is M - 1, length_fill_(L, Xs).

length_more_([], N, N).
length_more_([_|Xs], K, N) :- J is K + 1, length_more_(Xs, J, N).

length_most_(Xs, K, Most, N) :- K =< Most, length_next_(Xs, K, Most, N).

length_next_([], N, _, N).
length_next_([_|Xs], K, Most, N) :- J is K + 1, length_most_(Xs, J, Most, N).

%!  reverse(?Xs, ?Ys) is nondet.
%
%   Ys is Xs from behind: `det` where one of the two is a list.
%   - `?- reverse([a,b,c], Ys).` gives `Ys = [c,b,a]`, `;`, `no`
%   - `?- reverse(Xs, [a,b]).` gives `Xs = [b,a]`, `;`, `no`
reverse(Xs, Ys) :- reverse_(Xs, Ys, [], Ys).

% the second argument bounds the first where only the third is given
reverse_([], [], Ys, Ys).
reverse_([X|Xs], [_|Bound], Zs, Ys) :- reverse_(Xs, Bound, [X|Zs], Ys).

%!  last(?Xs, ?X) is nondet.
%
%   X is the last element of Xs: `semidet` where Xs is a list.
%   - `?- last([a,b,c], X).` gives `X = c`, `;`, `no`
%   - `?- last([], X).` gives `no`
last([X|Xs], Last) :- last_(Xs, X, Last).

last_([], Last, Last).
last_([X|Xs], _, Last) :- last_(Xs, X, Last).

%!  nth0(?N, ?Xs, ?X) is nondet.
%!  nth1(?N, ?Xs, ?X) is nondet.
%
%   X is element N of Xs, counted from 0 or from 1: `semidet` where N is given. Error: type_error(integer, N).
%   - `?- nth0(1, [a,b,c], X).` gives `X = b`, `;`, `no`
%   - `?- nth1(N, [a,b,a], a).` gives `N = 1`, `;`, `N = 3`, `;`, `no`
%   - `?- {N > 1}, nth1(N, [a,b,c], X).` gives `N = 2`, `X = b`, `;`, `N = 3`, `X = c`, `;`, `no`
%   - `?- nth1(2, Xs, a).` gives `Xs = [_1,a|_2]`, `;`, `no`
%   - `?- nth0(-1, [a], X).` gives `no`
%   - `?- nth0(a, [a], X).` gives `error: error(type_error(integer,a),nth0/3)`
nth0(N, Xs, X) :- nth_(N, 0, Xs, X, nth0/3).

nth1(N, Xs, X) :- nth_(N, 1, Xs, X, nth1/3).

nth_(N, First, Xs, X, _) :- integer(N), !, M is N - First, M >= 0, nth_given_(M, Xs, X).
nth_(N, First, [Y|Ys], X, _) :- var(N), !, nth_found_(Ys, Y, First, N, X).
nth_(N, _, _, _, PI) :- nonvar(N), throw(error(type_error(integer, N), PI)).

nth_given_(0, [X|_], Y) :- !, X = Y.
nth_given_(M, [_|Xs], X) :- L is M - 1, nth_given_(L, Xs, X).

nth_found_(_, X, N, N, X).
nth_found_([Y|Ys], _, M, N, X) :- L is M + 1, nth_found_(Ys, Y, L, N, X).

%!  delete(+Xs, ?X, -Ys) is semidet.
%
%   Ys is Xs without each element that could be equal to X. Nothing is bound, so an element that is a variable goes too, but for one
%   that constraints keep from X.
%   - `?- delete([a,b,a,c], a, Ys).` gives `Ys = [b,c]`, `;`, `no`
%   - `?- delete([f(1),g,f(2)], f(_), Ys).` gives `Ys = [g]`, `;`, `no`
%   - `?- {X > 5}, delete([X,1], 1, Ys).` gives `Ys = [X]`, `{X>5}`, `;`, `no`
delete([], _, []).
delete([Y|Ys], X, Zs) :-
    ( Y \= X -> Zs = [Y|Rest] ; Zs = Rest ),
    delete(Ys, X, Rest).

%!  msort(+Xs, -Ys) is det.
%!  sort(+Xs, -Ys) is det.
%
%   Ys is Xs in the standard order: variables, numbers by value, atoms by their bytes, compounds by number of arguments, name and
%   arguments. msort/2 keeps all elements, sort/2 one of those that are `==`. Merge sort: n elements take about n*log2(n) comparisons.
%   Errors: instantiation_error for an open list, type_error(list, Xs).
%   - `?- msort([c,1,a,f(x),1r2,a], Ys).` gives `Ys = [1r2,1,a,a,c,f(x)]`, `;`, `no`
%   - `?- sort([c,1,a,f(x),1r2,a], Ys).` gives `Ys = [1r2,1,a,c,f(x)]`, `;`, `no`
%   - `?- sort([b-1,a-2,b-1,a-1], Ys).` gives `Ys = [a-1,a-2,b-1]`, `;`, `no`
%   - `?- sort([], Ys).` gives `Ys = []`, `;`, `no`
%   - `?- msort(a, Ys).` gives `error: error(type_error(list,a),msort/2)`
%   - `?- sort([b|_], Ys).` gives `error: error(instantiation_error,sort/2)`
msort(Xs, Ys) :-
    sort_length_(Xs, msort/2, N),
    msort_(N, Xs, _, Zs),
    Ys = Zs.

msort_(0, Xs, Xs, []) :- !.
msort_(1, [X|Xs], Xs, [X]) :- !.
msort_(N, Xs, Rest, Zs) :-
    K is N // 2, L is N - K,
    msort_(K, Xs, Ys, As),
    msort_(L, Ys, Rest, Bs),
    msort_merge_(As, Bs, Zs).

msort_merge_([], Bs, Bs) :- !.
msort_merge_(As, [], As) :- !.
msort_merge_([A|As], [B|Bs], Zs) :-
    ( A @=< B -> Zs = [A|Rest], msort_merge_(As, [B|Bs], Rest)
    ; Zs = [B|Rest], msort_merge_([A|As], Bs, Rest) ).

sort(Xs, Ys) :-
    sort_length_(Xs, sort/2, N),
    msort_(N, Xs, _, Zs),
    sort_once_(Zs, Us),
    Ys = Us.

% the first of each run of equal elements
sort_once_([], []).
sort_once_([X|Xs], [X|Ys]) :- sort_once_(Xs, X, Ys).

sort_once_([], _, []).
sort_once_([Y|Ys], X, Zs) :-
    ( Y == X -> sort_once_(Ys, X, Zs) ; Zs = [Y|Rest], sort_once_(Ys, Y, Rest) ).

sort_length_(Xs, PI, N) :-
    length_walk_(Xs, 0, N, End),
    ( var(End) -> throw(error(instantiation_error, PI))
    ; End == [] -> true
    ; throw(error(type_error(list, Xs), PI)) ).

%!  predsort(:Order, +Xs, -Ys) is semidet.
%
%   Ys is Xs sorted by Order, which is called with three arguments more: `<`, `=` or `>`, and the two elements. Of two elements with `=`
%   the first stays. Fails where a call of Order does. Errors: as sort/2.
%   - `?- predsort(compare, [c,a,b,a], Ys).` gives `Ys = [a,b,c]`, `;`, `no`
%   - `?- assertz((by_key(O, A-_, B-_) :- compare(O, A, B))), predsort(by_key, [2-a,1-b,2-c], Ys).` gives `Ys = [1-b,2-a]`, `;`, `no`
%   - `?- predsort(compare, [], Ys).` gives `Ys = []`, `;`, `no`
%   - `?- predsort(compare, [a|_], Ys).` gives `error: error(instantiation_error,predsort/3)`
predsort(Order, Xs, Ys) :-
    sort_length_(Xs, predsort/3, N),
    predsort_(N, Order, Xs, _, Zs), !,
    Ys = Zs.

predsort_(0, _, Xs, Xs, []) :- !.
predsort_(1, _, [X|Xs], Xs, [X]) :- !.
predsort_(N, Order, Xs, Rest, Zs) :-
    K is N // 2, L is N - K,
    predsort_(K, Order, Xs, Ys, As),
    predsort_(L, Order, Ys, Rest, Bs),
    predsort_merge_(As, Bs, Order, Zs).

predsort_merge_([], Bs, _, Bs) :- !.
predsort_merge_(As, [], _, As) :- !.
predsort_merge_([A|As], [B|Bs], Order, Zs) :-
    call(Order, O, A, B), !,
    predsort_put_(O, A, As, B, Bs, Order, Zs).

predsort_put_(<, A, As, B, Bs, Order, [A|Zs]) :- predsort_merge_(As, [B|Bs], Order, Zs).
predsort_put_(=, A, As, _, Bs, Order, [A|Zs]) :- predsort_merge_(As, Bs, Order, Zs).
predsort_put_(>, A, As, B, Bs, Order, [B|Zs]) :- predsort_merge_([A|As], Bs, Order, Zs).

%!  compare(?Order, +X, +Y) is semidet.
%
%   Order is `<`, `=` or `>` as X stands to Y in the standard order. Errors: type_error(atom, Order), domain_error(order, Order).
%   - `?- compare(O, 1r2, 1).` gives `O = <`, `;`, `no`
%   - `?- compare(O, f(a), g).` gives `O = >`, `;`, `no`
%   - `?- compare(=, a, b).` gives `no`
%   - `?- compare(less, a, b).` gives `error: error(domain_error(order,less),compare/3)`
compare(Order, X, Y) :-
    ( X == Y -> Is = (=) ; X @< Y -> Is = (<) ; Is = (>) ),
    ( var(Order) -> true
    ; \+ atom(Order) -> throw(error(type_error(atom, Order), compare/3))
    ; member(Order, [<,=,>]) -> true
    ; throw(error(domain_error(order, Order), compare/3)) ),
    Order = Is.

%!  maplist(:G, ?Xs) is nondet.
%!  maplist(:G, ?Xs, ?Ys) is nondet.
%!  maplist(:G, ?Xs, ?Ys, ?Zs) is nondet.
%!  maplist(:G, ?Ws, ?Xs, ?Ys, ?Zs) is nondet.
%
%   G holds of each element, or of each two, three or four that stand at the same place of lists of one length.
%   - `?- maplist(integer, [1,2]).` gives `true`, `;`, `no`
%   - `?- maplist(=(X), [a,a]).` gives `X = a`, `;`, `no`
%   - `?- maplist(atom_length, [a,bc], Ns).` gives `Ns = [1,2]`, `;`, `no`
%   - `?- maplist(member, [X,Y], [[a,b],[c]]).` gives `X = a`, `Y = c`, `;`, `X = b`, `Y = c`, `;`, `no`
%   - `?- maplist(append, [[a],[]], [[b],[c]], Zs).` gives `Zs = [[a,b],[c]]`, `;`, `no`
%   - `?- assertz((paid(P, N, R, S) :- {S = P*N*(1 + R)})), maplist(paid, [2,3], [N,1], [1r10,0], [11,S]).` gives `N = 5`, `S = 3`, `;`, `no`
%   - `?- maplist(=, [a], [a,b]).` gives `no`
maplist(G, Xs) :- maplist_(Xs, G).

maplist_([], _).
maplist_([X|Xs], G) :- call(G, X), maplist_(Xs, G).

maplist(G, Xs, Ys) :- maplist_(Xs, Ys, G).

maplist_([], [], _).
maplist_([X|Xs], [Y|Ys], G) :- call(G, X, Y), maplist_(Xs, Ys, G).

maplist(G, Xs, Ys, Zs) :- maplist_(Xs, Ys, Zs, G).

maplist_([], [], [], _).
maplist_([X|Xs], [Y|Ys], [Z|Zs], G) :- call(G, X, Y, Z), maplist_(Xs, Ys, Zs, G).

maplist(G, Ws, Xs, Ys, Zs) :- maplist_(Ws, Xs, Ys, Zs, G).

maplist_([], [], [], [], _).
maplist_([W|Ws], [X|Xs], [Y|Ys], [Z|Zs], G) :- call(G, W, X, Y, Z), maplist_(Ws, Xs, Ys, Zs, G).

%!  foldl(:G, ?Xs, ?Start, ?End) is nondet.
%!  foldl(:G, ?Xs, ?Ys, ?Start, ?End) is nondet.
%!  foldl(:G, ?Xs, ?Ys, ?Zs, ?Start, ?End) is nondet.
%
%   G is called for each element in turn with the value so far and the next value behind it.
%   - `?- assertz((add(X, S, T) :- T is S + X)), foldl(add, [1,2,3], 0, Sum).` gives `Sum = 6`, `;`, `no`
%   - `?- assertz((times(A, X, S, T) :- {T = S + A*X})), foldl(times, [2,3], [X,1], 0, 7).` gives `X = 2`, `;`, `no`
%   - `?- assertz((less(X, Y, Z, S, T) :- {T = S + X - Y - Z})), foldl(less, [9,8], [1,2], [3,4], 0, T).` gives `T = 7`, `;`, `no`
%   - `?- foldl(foo, [], a, End).` gives `End = a`, `;`, `no`
foldl(G, Xs, V, W) :- foldl_(Xs, G, V, W).

foldl_([], _, V, V).
foldl_([X|Xs], G, U, W) :- call(G, X, U, V), foldl_(Xs, G, V, W).

foldl(G, Xs, Ys, V, W) :- foldl_(Xs, Ys, G, V, W).

foldl_([], [], _, V, V).
foldl_([X|Xs], [Y|Ys], G, U, W) :- call(G, X, Y, U, V), foldl_(Xs, Ys, G, V, W).

foldl(G, Xs, Ys, Zs, V, W) :- foldl_(Xs, Ys, Zs, G, V, W).

foldl_([], [], [], _, V, V).
foldl_([X|Xs], [Y|Ys], [Z|Zs], G, U, W) :- call(G, X, Y, Z, U, V), foldl_(Xs, Ys, Zs, G, V, W).

%!  include(:G, +Xs, -Ys) is semidet.
%!  exclude(:G, +Xs, -Ys) is semidet.
%
%   Ys has the elements of Xs for which G holds, or for which it doesn't. The first solution of G counts, and stays.
%   - `?- include(integer, [1,a,2], Ys).` gives `Ys = [1,2]`, `;`, `no`
%   - `?- exclude(integer, [1,a,2], Ys).` gives `Ys = [a]`, `;`, `no`
%   - `?- include(=(X), [a,b,a], Ys).` gives `X = a`, `Ys = [a,a]`, `;`, `no`
include(G, Xs, Ys) :- include_(Xs, G, Ys).

include_([], _, []).
include_([X|Xs], G, Ys) :-
    ( call(G, X) -> Ys = [X|Rest] ; Ys = Rest ),
    include_(Xs, G, Rest).

exclude(G, Xs, Ys) :- exclude_(Xs, G, Ys).

exclude_([], _, []).
exclude_([X|Xs], G, Ys) :-
    ( call(G, X) -> Ys = Rest ; Ys = [X|Rest] ),
    exclude_(Xs, G, Rest).

%!  forall(:C, :G) is semidet.
%
%   G holds in each solution of C. Binds nothing and tells no constraint.
%   - `?- forall(member(X, [1,2]), X > 0).` gives `true`, `;`, `no`
%   - `?- forall(member(X, [1,-2]), X > 0).` gives `no`
%   - `?- {Y >= 2}, forall(member(X, [1,2]), entailed(Y >= X)).` gives `{Y>=2}`, `;`, `no`
forall(C, G) :- \+ ( C, \+ G ).

%!  not(:G) is semidet.
%!  ignore(:G) is det.
%!  false is failure.
%
%   not/1 is `\+`. ignore/1 calls G for its first solution and succeeds also where there is none. false/0 is `fail`.
%   - `?- not(member(a, [b])).` gives `true`, `;`, `no`
%   - `?- not(member(_, [b])).` gives `no`
%   - `?- ignore(member(X, [a,b])).` gives `X = a`, `;`, `no`
%   - `?- ignore(member(X, [])).` gives `true`, `;`, `no`
%   - `?- member(X, [a,b]), false.` gives `no`
%   - `?- ignore(_).` gives `error: error(instantiation_error,call/1)`
not(G) :- \+ G.

ignore(G) :- ( call(G) -> true ; true ).

false :- fail.

%!  aggregate_all(+Spec, :G, -Value) is semidet.
%
%   What the solutions of G come to. `count`: how many there are. `sum(E)`: the sum of the values of E. `max(E)`, `min(E)`: the greatest
%   and the least value, and failure where there is no solution; `max(E, W)`, `min(E, W)`: with W of the first solution that has
%   it, as `max(Value, W)`. `bag(T)`: the list of T, `set(T)`: that list sorted, each element once. A value that constraints
%   leave open is an instantiation_error: let `inf/2` or `sup/2` in G make a number. Errors: instantiation_error,
%   domain_error(aggregate_template, Spec), type_error(number, E) of `max(E, W)`, and those of arithmetic.
%   - `?- aggregate_all(count, member(_, [a,b]), N).` gives `N = 2`, `;`, `no`
%   - `?- aggregate_all(sum(X), member(X, [1r2,1r3]), S).` gives `S = 5r6`, `;`, `no`
%   - `?- aggregate_all(max(X), member(X, [1,3,2]), M).` gives `M = 3`, `;`, `no`
%   - `?- aggregate_all(min(X, W), member(W-X, [a-2,b-1,c-1]), M).` gives `M = min(1,b)`, `;`, `no`
%   - `?- aggregate_all(max(X), member(X, []), M).` gives `no`
%   - `?- aggregate_all(bag(X), member(X, [c,a,c]), L).` gives `L = [c,a,c]`, `;`, `no`
%   - `?- aggregate_all(set(X), member(X, [c,a,c]), L).` gives `L = [a,c]`, `;`, `no`
%   - `?- aggregate_all(min(L), (member(A, [4,3]), {X >= A, X >= 7 - A}, inf(X, L)), Least).` gives `Least = 4`, `;`, `no`
%   - `?- aggregate_all(most, true, M).` gives `error: error(domain_error(aggregate_template,most),aggregate_all/3)`
aggregate_all(Spec, _, _) :- var(Spec), !, throw(error(instantiation_error, aggregate_all/3)).
aggregate_all(count, G, N) :- !, findall(x, G, Xs), length(Xs, M), N = M.
aggregate_all(sum(E), G, S) :- !, findall(E, G, Es), aggregate_sum_(Es, 0, T), S = T.
aggregate_all(max(E), G, M) :- !, findall(E, G, [F|Es]), V is F, aggregate_max_(Es, V, W), M = W.
aggregate_all(min(E), G, M) :- !, findall(E, G, [F|Es]), V is F, aggregate_min_(Es, V, W), M = W.
aggregate_all(max(E, T), G, M) :- !, aggregate_pairs_(E, T, G, F, W, Ps), aggregate_max_(Ps, F, W, M).
aggregate_all(min(E, T), G, M) :- !, aggregate_pairs_(E, T, G, F, W, Ps), aggregate_min_(Ps, F, W, M).
aggregate_all(bag(T), G, L) :- !, findall(T, G, L).
aggregate_all(set(T), G, L) :- !, findall(T, G, Ts), sort(Ts, L).
aggregate_all(Spec, _, _) :- throw(error(domain_error(aggregate_template, Spec), aggregate_all/3)).

aggregate_sum_([], S, S).
aggregate_sum_([E|Es], S, U) :- T is S + E, aggregate_sum_(Es, T, U).

aggregate_max_([], M, M).
aggregate_max_([E|Es], L, M) :- K is max(L, E), aggregate_max_(Es, K, M).

aggregate_min_([], M, M).
aggregate_min_([E|Es], L, M) :- K is min(L, E), aggregate_min_(Es, K, M).

aggregate_pairs_(E, T, G, F, W, Ps) :-
    findall(E-T, G, [F-W|Ps]),
    ( number(F) -> true ; throw(error(type_error(number, F), aggregate_all/3)) ).

aggregate_max_([], M, W, max(M, W)).
aggregate_max_([E-V|Ps], L, W, M) :-
    ( E > L -> aggregate_max_(Ps, E, V, M) ; aggregate_max_(Ps, L, W, M) ).

aggregate_min_([], M, W, min(M, W)).
aggregate_min_([E-V|Ps], L, W, M) :-
    ( E < L -> aggregate_min_(Ps, E, V, M) ; aggregate_min_(Ps, L, W, M) ).
