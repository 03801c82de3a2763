% When to begin each task of a small project, so that it ends as early as it can. Some tasks wait for others, and no more than
% four people are at work at a time.
include "cumulative.mzn";

enum TASK = {survey, ground, walls, roof, wiring, pipes, paint, garden};
array[TASK] of int: days = [2, 3, 5, 3, 4, 3, 2, 3];
array[TASK] of int: people = [1, 3, 3, 2, 2, 2, 2, 2];
int: crew = 4;
array[1..8, 1..2] of TASK: before =
  [| survey, ground | ground, walls | walls, roof | walls, wiring | walls, pipes | roof, paint | wiring, paint | pipes, paint |];

array[TASK] of var 0..sum(days): begin;
var 0..sum(days): end;

constraint forall(row in 1..8) (begin[before[row, 1]] + days[before[row, 1]] <= begin[before[row, 2]]);
constraint forall(t in TASK) (begin[t] + days[t] <= end);
constraint cumulative(begin, days, people, crew);

solve :: int_search(begin, smallest, indomain_min) minimize end;

output ["\(t): day \(begin[t]) to \(begin[t] + days[t])\n" | t in TASK] ++ ["it takes \(end) days\n"];
