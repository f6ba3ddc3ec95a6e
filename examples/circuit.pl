% Currents and unknown resistors: what flows, which resistor is wanted, and what two are together.
% ohm(V, I, R): V volts drive I amperes through R ohms.
% A value on a bound is on it: no rounding moves it across. A product of two unknowns is told as it stands, never guessed.
ohm(V, I, R) :- {V = I*R}.

% Two resistors behind one another; Out volts stand at the second.
divider(Volts, R1, R2, I, Out) :- {Volts = V1 + Out}, ohm(V1, I, R1), ohm(Out, I, R2).

% Two resistors beside one another.
parallel(V, R1, R2, I) :- {I = I1 + I2}, ohm(V, I1, R1), ohm(V, I2, R2).

box(10).
box(22).
box(33).
box(47).
