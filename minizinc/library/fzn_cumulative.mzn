% The program has a propagator for tasks that share a capacity; without this each moment becomes a sum.
predicate fzn_cumulative(array[int] of var int: s, array[int] of var int: d, array[int] of var int: r, var int: b);
