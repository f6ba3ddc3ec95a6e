% An atom of N pieces that are joined one by one, taken apart into characters and joined again, and its blanks counted.
joined(0, A, A) :- !.
joined(N, A, B) :- K is N mod 7, piece(K, P), atom_concat(A, P, C), M is N - 1, joined(M, C, B).

piece(0, 'one ').
piece(1, two).
piece(2, ' three').
piece(3, four).
piece(4, 'five ').
piece(5, six).
piece(6, 'seven ').

blanks([], N, N).
blanks([C|Cs], N, M) :- C == ' ', !, K is N + 1, blanks(Cs, K, M).
blanks([_|Cs], N, M) :- blanks(Cs, N, M).

% the places of a text in an atom
places(A, P, N) :- findall(B, sub_atom(A, B, _, _, P), Bs), count(Bs, 0, N).

count([], N, N).
count([_|Xs], N, M) :- K is N + 1, count(Xs, K, M).

bench(N) :-
    joined(N, '', A), atom_chars(A, Cs), blanks(Cs, 0, K), atom_chars(B, Cs), atom_length(B, L),
    places(A, 'ven', M), write([L,K,M]), nl.
