% A head that would need a term that contains itself: X = f(X).
:- module(cyclic,[q/0]).

q :- p(X,f(X)).
p(X,X).
