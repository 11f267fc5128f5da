% Three jobs are sawn, painted and packed, one at a time at each machine. All can be ready at 13: the deadline is one too early.
include "globals.mzn";
enum Job = { Table, Chair, Shelf };
enum Machine = { Saw, Paint, Pack };
array[Job, Machine] of int: takes = [| 2, 3, 1 | 3, 4, 1 | 2, 3, 1 |];
int: deadline = 12;
array[Job, Machine] of var 0..30: start;

% each job goes from machine to machine
constraint forall (j in Job, m in Saw..Paint) (start[j, m] + takes[j, m] <= start[j, enum_next(Machine, m)]);

% each machine has one job at a time
constraint forall (m in Machine) (disjunctive([start[j, m] | j in Job], [takes[j, m] | j in Job]));

% each job is ready in time
constraint forall (j in Job) (start[j, Pack] + takes[j, Pack] <= deadline);

% the table is sawn before the shelf
constraint start[Table, Saw] < start[Shelf, Saw];

solve satisfy;
