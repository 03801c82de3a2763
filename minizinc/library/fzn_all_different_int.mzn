% The program has a propagator for values that differ; without this each pair becomes an inequality.
predicate fzn_all_different_int(array[int] of var int: x);
