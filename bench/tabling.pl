% The least model of a percent board by tabling: of the answers for a statement only the greatest is kept.
%
%     swipl bench/tabling.pl -- FACTS STATEMENTS TURNS
%
% FACTS has a fact rule(Head, Form, Weight, Bodies) for each rule: the form is a, o or l, or f where there are no bodies.
% Prints the grade of each statement, one a line, then the nanoseconds of the fastest of TURNS queries of all statements.

:- table grade(_, max).

grade(S, G) :- rule(S, Form, Weight, Bodies), value(Form, Weight, Bodies, G).

value(f, Weight, [], Weight).
value(a, Weight, [B|Bs], G) :- grade(B, First), least(Bs, First, Least), G is Weight * Least // 100.
value(o, Weight, Bs, G) :- member(B, Bs), grade(B, One), G is Weight * One // 100.
value(l, Weight, Bs, G) :- chain(Bs, Weight, G).

least([], Least, Least).
least([B|Bs], Least0, Least) :- grade(B, G), Least1 is min(Least0, G), least(Bs, Least1, Least).

chain([], G, G).
chain([B|Bs], G0, G) :- grade(B, One), G1 is G0 * One // 100, chain(Bs, G1, G).

% A statement with no answer has the lowest grade.
grade_or_0(S, G) :- ( grade(S, Found) -> G = Found ; G = 0 ).

query(Count) :- forall(between(1, Count, S), grade_or_0(S, _)).

fastest(0, _, Best, Best) :- !.
fastest(Turns, Count, Best0, Best) :-
    abolish_all_tables,
    get_time(Start),
    query(Count),
    get_time(End),
    Time is End - Start,
    Best1 is min(Best0, Time),
    Left is Turns - 1,
    fastest(Left, Count, Best1, Best).

main([Facts, StatementsWord, TurnsWord]) :-
    atom_number(StatementsWord, Count),
    atom_number(TurnsWord, Turns),
    load_files(Facts, []),
    fastest(Turns, Count, inf, Best),
    forall(between(1, Count, S), ( grade_or_0(S, G), format("~w~n", [G]) )),
    Nanos is round(Best * 1.0e9),
    format("~w~n", [Nanos]).

:- use_module(library(main)).
:- initialization(main, main).
