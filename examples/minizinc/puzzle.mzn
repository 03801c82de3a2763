% Each letter is a digit, none is given twice, and SEND + MORE = MONEY.
include "all_different.mzn";

enum LETTER = {S, E, N, D, M, O, R, Y};
array[LETTER] of var 0..9: digit;

constraint all_different(digit);
constraint digit[S] > 0 /\ digit[M] > 0;
constraint
  1000 * digit[S] + 100 * digit[E] + 10 * digit[N] + digit[D] + 1000 * digit[M] + 100 * digit[O] + 10 * digit[R] + digit[E] =
  10000 * digit[M] + 1000 * digit[O] + 100 * digit[N] + 10 * digit[E] + digit[Y];

solve satisfy;

output ["\(digit[S])\(digit[E])\(digit[N])\(digit[D]) + \(digit[M])\(digit[O])\(digit[R])\(digit[E]) = \(digit[M])\(digit[O])\(digit[N])\(digit[E])\(digit[Y])\n"];
