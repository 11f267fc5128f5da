% Six jobs on six machines, each job in its own order: the least time in which all are done. (Fisher and Thompson, 1963.)
include "globals.mzn";

set of int: Jobs = 1..6;
set of int: Steps = 1..6;
array[Jobs, Steps] of int: machine =
  [| 3, 1, 2, 4, 6, 5 | 2, 3, 5, 6, 1, 4 | 3, 4, 6, 1, 2, 5
   | 2, 1, 3, 4, 5, 6 | 3, 2, 5, 6, 1, 4 | 2, 4, 6, 1, 5, 3 |];
array[Jobs, Steps] of int: lasts =
  [| 1, 3, 6, 7, 3, 6 | 8, 5, 10, 10, 10, 4 | 5, 4, 8, 9, 1, 7
   | 5, 5, 5, 3, 8, 9 | 9, 3, 5, 4, 3, 1 | 3, 3, 9, 10, 4, 1 |];
int: horizon = 80;

array[Jobs, Steps] of var 0..horizon: start;
var 0..horizon: end;

constraint forall (j in Jobs, s in 1..5) (start[j, s] + lasts[j, s] <= start[j, s + 1]);
constraint forall (j in Jobs) (start[j, 6] + lasts[j, 6] <= end);
constraint forall (m in 1..6) (
  disjunctive([start[j, s] | j in Jobs, s in Steps where machine[j, s] = m],
              [lasts[j, s] | j in Jobs, s in Steps where machine[j, s] = m]));

solve minimize end;

output ["job \(j): \([start[j, s] | s in Steps])\n" | j in Jobs] ++ ["end: \(end)\n"];
