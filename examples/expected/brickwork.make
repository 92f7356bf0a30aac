pattern 1
in a b
n q1
n q2
n q3
n q4
n q5
n q6
n q7
n q8
e a q1
e b q2
e q1 q3
e q2 q4
e q3 q4
e q3 q5
e q4 q6
e q5 q7
e q6 q8
e q7 q8
m a 7
x q1 a
x q5 a
z q7 a
m b 6
x q2 b
x q6 b
z q8 b
m q1 5
x q3 q1
x q6 q1
x q7 q1
m q2 0
x q4 q2
x q5 q2
x q8 q2
m q3 1
x q5 q3
z q7 q3
m q4 7
x q6 q4
z q8 q4
m q5 6
x q7 q5
z q8 q5
m q6 3
x q8 q6
z q7 q6
out q7 q8
end
