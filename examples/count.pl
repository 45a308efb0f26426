% Natural numbers: z, s(z), s(s(z)), and so on.
:- module(count,[n/1]).

n(z).
n(s(X)) :- n(X).
