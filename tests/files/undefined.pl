:- module(undefined,[top/0,missing/1]).
top :- helper(1).
