% A predicate whose name is a prefix operator.
:- module(minus,[(-)/1]).

-(a).
