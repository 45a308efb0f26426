:- module(blocked,[p/0]).
:- use_module(folder).
p.
