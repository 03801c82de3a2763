% A week's shifts of three nurses: each week is one of the patterns that are allowed, each day has one nurse on the early and
% one on the late shift, and wishes for days off are met as far as they can be.
include "table.mzn";
include "global_cardinality.mzn";

int: off = 1;
int: early = 2;
int: late = 3;
array[1..9, 1..7] of int: pattern =
  [| 2, 2, 2, 3, 3, 1, 1 | 2, 2, 3, 3, 1, 1, 2 | 3, 3, 1, 1, 2, 2, 2 | 1, 1, 2, 2, 2, 3, 3 | 3, 1, 1, 2, 2, 3, 3
   | 1, 3, 3, 1, 1, 2, 2 | 3, 3, 3, 1, 1, 2, 2 | 1, 1, 3, 2, 2, 3, 3 | 2, 2, 1, 1, 3, 3, 3 |];
% How much each nurse would like the day off.
array[1..3, 1..7] of int: wish = [| 0, 0, 2, 5, 4, 0, 0 | 0, 0, 0, 0, 2, 6, 6 | 4, 4, 0, 0, 0, 1, 1 |];

array[1..3, 1..7] of var 1..3: shift;
var 0..sum(wish): met = sum(n in 1..3, d in 1..7) (wish[n, d] * bool2int(shift[n, d] = off));

constraint forall(n in 1..3) (table([shift[n, d] | d in 1..7], pattern));
constraint forall(d in 1..7) (global_cardinality([shift[n, d] | n in 1..3], [off, early, late], [1, 1, 1]));

solve maximize met;

output ["nurse \(n): " ++ concat([["-", "E", "L"][fix(shift[n, d])] ++ " " | d in 1..7]) ++ "\n" | n in 1..3] ++ ["wishes met: \(met)\n"];
