% Ten lessons, three rooms, five hours: no teacher and no class twice at once, large classes in large rooms, few late lessons.
include "globals.mzn";

enum Teacher = { Ito, Kay, Lem, Moor };
enum Class = { A, B, C };
set of int: Lessons = 1..10;
set of int: Hours = 1..5;
set of int: Rooms = 1..3;
array[Lessons] of Teacher: teacher = [Ito, Ito, Ito, Kay, Kay, Lem, Lem, Lem, Moor, Moor];
array[Lessons] of Class: class = [A, B, C, A, C, A, B, C, B, C];
array[Class] of int: pupils = [18, 27, 22];
array[Rooms] of int: seats = [20, 25, 30];

array[Lessons] of var Hours: hour;
array[Lessons] of var Rooms: room;

constraint forall (t in Teacher) (alldifferent([hour[l] | l in Lessons where teacher[l] = t]));
constraint forall (c in Class) (alldifferent([hour[l] | l in Lessons where class[l] = c]));
constraint alldifferent([3 * hour[l] + room[l] | l in Lessons]);
constraint forall (l in Lessons) (pupils[class[l]] <= seats[room[l]]);
constraint hour[6] < hour[7]; % the first lesson of Lem is that of class A
constraint forall (l in Lessons where teacher[l] = Moor) (hour[l] != 1);

var 0..100: late = sum (l in Lessons) (max(0, hour[l] - 3));

solve minimize late;

output ["lesson \(l): hour \(hour[l]), room \(room[l])\n" | l in Lessons] ++ ["late: \(late)\n"];
