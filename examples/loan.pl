% mg(P, T, I, B, M): a loan of P over T months at the monthly rate of interest I, paid back by M a month, has the balance B at the end.
mg(P,T,I,B,M) :- {T=1, B+M=P*(1+I)}.
mg(P,T,I,B,M) :- {T>1, P1=P*(1+I)-M, T1=T-1}, mg(P1,T1,I,B,M).
