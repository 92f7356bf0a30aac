pattern 1
in a b c
n q1
n q2
n q3
n q4
n q5
n q6
n q7
n q8
n q9
n q10
n q11
n q12
n q13
n q14
e a q2
e a q6
e a q9
e a q11
e a q13
e b c
e b q4
e b q9
e c q1
e q1 q2
e q2 q3
e q3 q4
e q4 q5
e q5 q6
e q6 q7
e q7 q8
e q9 q10
e q10 q11
e q11 q12
e q13 q14
m c 0
x q1 c
x q3 c
x q5 c
x q7 c
z q8 c
m q1 1
x q2 q1
x q4 q1
x q6 q1
x q8 q1
x q9 q1
x q11 q1
z q12 q1
m q2 0
x q3 q2
x q5 q2
x q7 q2
z q8 q2
m q3 7
x q4 q3
x q6 q3
x q8 q3
x q9 q3
x q11 q3
x q13 q3
z q12 q3
z q14 q3
m b 7
x q9 b
x q11 b
z q12 b
m q4 0
x q5 q4
x q7 q4
z q8 q4
m q5 1
x q6 q5
x q8 q5
x q13 q5
z q14 q5
m q9 0
x q10 q9
x q12 q9
m a 7
x q13 a
z q14 a
m q6 0
x q7 q6
z q8 q6
m q10 1
x q11 q10
x q13 q10
z q12 q10
z q14 q10
m q7 7
x q8 q7
m q11 0
x q12 q11
m q13 0
x q14 q13
out q14 q12 q8
end
