% Sixteen tasks of a building project, eight people and three cranes: the least time in which all are done.
include "globals.mzn";

set of int: Tasks = 1..16;
array[Tasks] of int: weeks  = [3, 5, 2, 4, 6, 3, 2, 4, 5, 3, 2, 4, 6, 3, 5, 2];
array[Tasks] of int: people = [2, 3, 4, 2, 3, 4, 5, 2, 3, 4, 2, 3, 5, 4, 3, 6];
array[Tasks] of int: cranes = [1, 0, 1, 2, 1, 0, 1, 1, 2, 0, 1, 1, 1, 2, 0, 1];
array[1..13, 1..2] of Tasks: before =
  [| 1, 2 | 1, 4 | 2, 5 | 3, 5 | 3, 6 | 4, 8 | 5, 9 | 6, 10 | 8, 11 | 9, 12
   | 3, 13 | 6, 14 | 10, 15 |];
int: horizon = sum(weeks);

array[Tasks] of var 0..horizon: start;
var 0..horizon: end;

constraint forall (k in index_set_1of2(before)) (
  start[before[k, 1]] + weeks[before[k, 1]] <= start[before[k, 2]]);
constraint cumulative(start, weeks, people, 8);
constraint cumulative(start, weeks, cranes, 3);
constraint forall (t in Tasks) (start[t] + weeks[t] <= end);

solve minimize end;

output ["starts: \(start)\nend: \(end)\n"];
