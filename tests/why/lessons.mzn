% Seven lessons of two classes and three teachers, in two rooms: when is the last of them? Bach gives five, and needs an hour for each.
include "globals.mzn";
enum Teacher = { Adler, Bach, Cohn };
int: lessons = 7;
array[1..lessons] of Teacher: by = [Bach, Bach, Adler, Bach, Bach, Cohn, Bach];
array[1..2] of set of int: taken = [{1, 2, 3, 4}, {5, 6, 7}];
array[1..lessons] of var 1..10: hour;
var 1..10: last;

% a class and a teacher have one lesson at a time
constraint forall (c in 1..2) (alldifferent([hour[l] | l in taken[c]]));
constraint forall (t in Teacher) (alldifferent([hour[l] | l in 1..lessons where by[l] = t]));

% two rooms
constraint forall (h in 1..10) (count([hour[l] | l in 1..lessons], h) <= 2);

% all lessons are over by the last hour
constraint forall (l in 1..lessons) (hour[l] <= last);

% the third lesson comes after the first
constraint hour[3] > hour[1];

solve minimize last;
