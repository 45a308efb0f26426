:- module(printing,[p/2],[dcg,fsyntax]).
:- use_module(library(write)).
p(X,~twice(X)) :- write(X), nl, writeq('a b'), nl.
twice(X) := [X,X].
