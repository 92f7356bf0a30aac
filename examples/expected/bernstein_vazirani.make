pattern 1
in
n q_0
n q_1
n q_2
n parity
n q1
n q2
n q3
n q4
n q5
n q6
n q7
n q8
n q9
n q10
n q11
e q_0 q5
e q_0 q9
e q_1 q10
e q_2 q7
e q_2 q11
e parity q1
e q1 q2
e q2 q3
e q3 q4
e q4 q5
e q5 q6
e q6 q7
e q7 q8
m parity 0
x q1 parity
x q3 parity
x q5 parity
x q7 parity
x q9 parity
x q11 parity
z q8 parity
m q1 0
x q_0 q1
x q2 q1
x q4 q1
z q9 q1
m q2 4
x q3 q2
x q5 q2
x q7 q2
x q9 q2
x q11 q2
z q8 q2
m q3 0
x q_0 q3
x q4 q3
z q9 q3
m q4 0
x q5 q4
x q7 q4
x q9 q4
x q11 q4
z q8 q4
m q5 0
x q_0 q5
z q9 q5
m q6 0
x q7 q6
x q11 q6
z q8 q6
m q_0 0
x q9 q_0
m q_1 0
x q10 q_1
m q_2 0
x q11 q_2
m q7 0
x q8 q7
out q9 q10 q11 q8
end
