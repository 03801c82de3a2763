% How few bins hold n things, of which no three fit in one? Decisions: the bin of each thing, the largest first.
int: n;
int: room = 50;
array[1..n] of int: size = reverse(sort([17 + (i * i * 5 + i * 2) mod 8 | i in 1..n]));

array[1..n] of var 1..n: bin;
var 1..n: bins;
constraint forall(b in 1..n) (sum(i in 1..n) (size[i] * bool2int(bin[i] = b)) <= room);
constraint forall(i in 1..n) (bin[i] <= bins /\ bin[i] <= i);
constraint bins * room >= sum(size);

solve :: int_search(bin ++ [bins], input_order, indomain_min, complete) minimize bins;
