% Sorting, with assertions about both predicates.
% Run sorted([3,1,2],Ns), then sorted([3,a],Ns).
:- module(quicksort,[sorted/2],[assertions]).
:- use_module(library(lists),[append/3]).
:- entry sorted(Ns,Ms) : list(Ns,int).
:- pred sorted(Ns,Ms) : list(Ns,int) => list(Ms,int) # "Ms has the numbers of Ns in order".
sorted([],[]).
sorted([N|Ns],Ms) :- parted(Ns,N,Small,Large), sorted(Small,As), sorted(Large,Bs), append(As,[N|Bs],Ms).
:- pred parted(Ns,N,Small,Large) : (list(Ns,int), int(N)) => (list(Small,int), list(Large,int)).
parted([],_,[],[]).
parted([M|Ns],N,[M|Small],Large) :- M < N, parted(Ns,N,Small,Large).
parted([M|Ns],N,Small,[M|Large]) :- M >= N, parted(Ns,N,Small,Large).
