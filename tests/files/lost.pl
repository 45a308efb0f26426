:- module(lost,[p/0]).

:- use_module(not_there).
p.
