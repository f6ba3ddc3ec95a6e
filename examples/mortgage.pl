% What a mortgage costs: its payment, the loan that a payment is enough for, its length, and what all such loans have in common.
% P is lent, M is paid at the end of each of T periods, I is the interest of a period, and B is what is owed after the last.
% Numbers are fractions, so the balance after the last payment is exactly 0. A payment rounded to cents leaves one of cents.
mortgage(P, T, I, B, M) :- {T = 1, B = P*(1 + I) - M}.
mortgage(P, T, I, B, M) :- {T > 1, P1 = P*(1 + I) - M, T1 = T - 1}, mortgage(P1, T1, I, B, M).
