% Where do n queens stand so that none attacks another? Decisions: the row in each column.
include "all_different.mzn";
int: n;
array[1..n] of var 1..n: row;
constraint all_different(row) /\ all_different(i in 1..n) (row[i] + i) /\ all_different(i in 1..n) (row[i] - i);

solve :: int_search(row, input_order, indomain_min, complete) satisfy;
