% SWI-Prolog's time for two structures of 499 applications, in microseconds: equal ones, and one of variables. main/0 prints both.
structure(0, c, _) :- !.
structure(N, a(S, E), E) :- M is N - 1, structure(M, S, E).

variables(0, c) :- !.
variables(N, a(S, _)) :- M is N - 1, variables(M, S).

% the goal's time, without that of the loop around it
microseconds(Goal, Rounds, T) :-
    statistics(cputime, A),
    ( between(1, Rounds, _), \+ \+ Goal, fail ; true ),
    statistics(cputime, B),
    ( between(1, Rounds, _), \+ \+ true, fail ; true ),
    statistics(cputime, C),
    T is ((B - A) - (C - B)) / Rounds * 1.0e6.

main :-
    structure(499, S, e), structure(499, T, e), variables(499, V),
    microseconds(unify_with_occurs_check(S, T), 50000, Equal),
    microseconds(unify_with_occurs_check(S, V), 50000, Variables),
    format("~4f ~4f~n", [Equal, Variables]).
