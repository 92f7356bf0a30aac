pattern 1
in
n q_0
n q_1
n q1
n q2
n q3
n q4
n q5
n q6
n q7
n q8
n q9
n q10
n q11
n q12
e q_0 q_1
e q_0 q1
e q_1 q2
e q1 q3
e q2 q5
e q3 q4
e q4 q6
e q4 q7
e q5 q6
e q6 q9
e q7 q8
e q8 q11
e q9 q10
e q10 q12
m q_0 0
x q1 q_0
x q4 q_0
x q8 q_0
x q9 q_0
x q12 q_0
z q11 q_0
m q_1 0
x q2 q_1
x q6 q_1
x q7 q_1
x q10 q_1
x q11 q_1
z q12 q_1
m q1 0
x q3 q1
x q7 q1
x q11 q1
m q2 0
x q5 q2
x q9 q2
x q12 q2
m q3 4
x q4 q3
x q8 q3
x q9 q3
x q12 q3
z q11 q3
m q5 4
x q6 q5
x q7 q5
x q10 q5
x q11 q5
z q12 q5
m q4 0
x q7 q4
x q11 q4
m q6 0
x q9 q6
x q12 q6
m q7 4
x q8 q7
z q11 q7
m q9 4
x q10 q9
z q12 q9
m q8 0
x q11 q8
m q10 0
x q12 q10
out q11 q12
end
