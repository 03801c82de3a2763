% Which of n items are worth most within the capacity? Decisions: each item, taken first.
int: n;
array[1..n] of int: weight = [20 + (i * 37 + 11) mod 41 | i in 1..n];
array[1..n] of int: worth = [weight[i] + (i * 29 + 5) mod 17 | i in 1..n];
int: capacity = sum(weight) div 2;

array[1..n] of var 0..1: take;
var 0..sum(worth): total;
constraint total = sum(i in 1..n) (worth[i] * take[i]);
constraint sum(i in 1..n) (weight[i] * take[i]) <= capacity;

solve :: int_search(take, input_order, indomain_max, complete) maximize total;
