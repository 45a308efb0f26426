:- module(importing,[p/1]).
:- use_module(given).
p(X) :- q(X), \+ X = 2.
