% How many cells of a square of n by n live in a pattern of the game of life that stays as it is? Decisions: each cell, living first.
int: n;
set of int: around = 0..n + 3;
array[around, around] of var 0..1: cell;
var 0..n * n: living;
constraint living = sum(i in 2..n + 1, j in 2..n + 1) (cell[i, j]);
constraint forall(i in around, j in around where i < 2 \/ j < 2 \/ i > n + 1 \/ j > n + 1) (cell[i, j] = 0);
constraint forall(i in 1..n + 2, j in 1..n + 2) (
  let {
    var 0..8: near = sum(a in -1..1, b in -1..1 where a != 0 \/ b != 0) (cell[i + a, j + b]);
  } in (cell[i, j] = 1 -> near >= 2 /\ near <= 3) /\ (cell[i, j] = 0 -> near != 3));

solve :: int_search([cell[i, j] | i in 2..n + 1, j in 2..n + 1], input_order, indomain_max, complete) maximize living;
