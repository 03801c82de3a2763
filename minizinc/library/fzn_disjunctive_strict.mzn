% Tasks that don't overlap share a capacity of 1; one without length may not stand inside another, which is said pair by pair
% of those that may have none.
include "fzn_cumulative.mzn";

predicate fzn_disjunctive_strict(array[int] of var int: s, array[int] of var int: d) =
  forall(i in index_set(d)) (d[i] >= 0) /\
  fzn_cumulative(s, d, [1 | i in index_set(s)], 1) /\
  forall(i, j in index_set(d) where i < j /\ (lb(d[i]) <= 0 \/ lb(d[j]) <= 0)) (
    s[i] + d[i] <= s[j] \/ s[j] + d[j] <= s[i]
  );
