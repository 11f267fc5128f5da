% Ten jobs on ten machines, each job in its own order: the least time in which all are done. (Fisher and Thompson, 1963.)
include "globals.mzn";

set of int: Jobs = 1..10;
set of int: Steps = 1..10;
array[Jobs, Steps] of int: machine =
  [| 1, 2, 3, 4, 5, 6, 7, 8, 9, 10 | 1, 3, 5, 10, 4, 2, 7, 6, 8, 9
   | 2, 1, 4, 3, 9, 6, 8, 7, 10, 5 | 2, 3, 1, 5, 7, 9, 8, 4, 10, 6
   | 3, 1, 2, 6, 4, 5, 9, 8, 10, 7 | 3, 2, 6, 4, 9, 10, 1, 7, 5, 8
   | 2, 1, 4, 3, 7, 6, 10, 9, 8, 5 | 3, 1, 2, 6, 5, 7, 9, 10, 8, 4
   | 1, 2, 4, 6, 3, 10, 7, 8, 5, 9 | 2, 1, 3, 7, 9, 10, 6, 4, 5, 8 |];
array[Jobs, Steps] of int: lasts =
  [| 29, 78, 9, 36, 49, 11, 62, 56, 44, 21 | 43, 90, 75, 11, 69, 28, 46, 46, 72, 30
   | 91, 85, 39, 74, 90, 10, 12, 89, 45, 33 | 81, 95, 71, 99, 9, 52, 85, 98, 22, 43
   | 14, 6, 22, 61, 26, 69, 21, 49, 72, 53 | 84, 2, 52, 95, 48, 72, 47, 65, 6, 25
   | 46, 37, 61, 13, 32, 21, 32, 89, 30, 55 | 31, 86, 46, 74, 32, 88, 19, 48, 36, 79
   | 76, 69, 76, 51, 85, 11, 40, 89, 26, 74 | 85, 13, 61, 7, 64, 76, 47, 52, 90, 45 |];
int: horizon = 1200;

array[Jobs, Steps] of var 0..horizon: start;
var 0..horizon: end;

constraint forall (j in Jobs, s in 1..9) (start[j, s] + lasts[j, s] <= start[j, s + 1]);
constraint forall (j in Jobs) (start[j, 10] + lasts[j, 10] <= end);
constraint forall (m in 1..10) (
  disjunctive([start[j, s] | j in Jobs, s in Steps where machine[j, s] = m],
              [lasts[j, s] | j in Jobs, s in Steps where machine[j, s] = m]));

solve minimize end;

output ["job \(j): \([start[j, s] | s in Steps])\n" | j in Jobs] ++ ["end: \(end)\n"];
