:- module(nested,[p/1]).
p(a).