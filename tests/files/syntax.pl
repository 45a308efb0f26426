:- module(syntax,[p/1]).
p(a).
p(a b).
