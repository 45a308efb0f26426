% Assertions about the computation: a worker is found for each job, and just one.
% Run worker(paint,W), then worker(sweep,W), then worker(cook,W).
:- module(jobs,[worker/2]).
:- pred worker(Job,W) : atm(Job) => atm(W) + (not_fails, is_det).
worker(Job,W) :- does(W,Job).
does(ann,paint).
does(bob,sweep).
does(cat,sweep).
