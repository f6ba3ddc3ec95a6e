% The loop   i = 0; s = 0; while (i + 1 <= n) { i = i + 1; s = s + 3; }   ends with s = 3*n, for each whole n from 0 on.
% Each query asks for a state that breaks a step of the proof. `no` says that there is none, so the step is proved.
% Where there are such states the answer is all of them: so for the guard i < n, with i and n that need not be whole.
invariant(I, S, N) :- {S = 3*I, I =< N}.
broken(I, S, N) :- {S =\= 3*I ; I > N}.
