% A grammar over character codes: sums of numbers, with their values.
% Run value("12+30-2",V), then value("1+",V).
:- module(sums,[value/2],[dcg,assertions]).
:- pred value(Codes,V) : list(Codes,int) => int(V) + is_det.
value(Codes,V) :- sum(V,Codes,[]), !.

sum(V) --> number(N), rest(N,V).

rest(S,V) --> "+", number(N), {T is S + N}, rest(T,V).
rest(S,V) --> "-", number(N), {T is S - N}, rest(T,V).
rest(V,V) --> [].

number(N) --> digit(D), digits(D,N).

digits(M,N) --> digit(D), {T is M * 10 + D}, digits(T,N).
digits(N,N) --> [].

digit(D) --> [C], {C >= 0'0, C =< 0'9, D is C - 0'0}.
