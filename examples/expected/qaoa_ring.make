pattern 1
in
n a
n b
n c
n q1
n q2
n q3
n q4
n q5
n q6
n q7
n q8
n q9
n q10
n q11
n q12
n q13
n q14
n q15
n q16
n q17
n q18
e a q1
e a q3
e a q9
e b q1
e c q5
e q1 q2
e q2 q3
e q3 q4
e q4 q5
e q4 q7
e q4 q15
e q5 q6
e q6 q7
e q7 q8
e q8 q9
e q8 q11
e q8 q17
e q9 q10
e q10 q11
e q11 q12
e q12 q13
e q13 q14
e q15 q16
e q17 q18
m b 0
x q1 b
x q3 b
x q15 b
z q16 b
m c 0
x q5 c
x q7 c
x q17 c
z q18 c
m q2 7
x q3 q2
x q9 q2
x q11 q2
x q13 q2
x q15 q2
z q14 q2
z q16 q2
m q1 0
x a q1
x q4 q1
x q6 q1
x q10 q1
x q12 q1
x q14 q1
x q16 q1
m q3 0
x q4 q3
x q6 q3
x q16 q3
m q5 0
x q6 q5
x q8 q5
x q10 q5
x q18 q5
m a 0
x q9 a
x q11 a
x q13 a
z q14 a
m q6 7
x q7 q6
x q15 q6
x q17 q6
z q16 q6
z q18 q6
m q7 0
x q8 q7
x q10 q7
x q18 q7
m q9 0
x q10 q9
x q12 q9
x q14 q9
m q10 7
x q11 q10
x q13 q10
x q17 q10
z q14 q10
z q18 q10
m q11 0
x q12 q11
x q14 q11
m q4 0
x q15 q4
z q16 q4
m q8 0
x q17 q8
z q18 q8
m q12 0
x q13 q12
z q14 q12
m q13 7
x q14 q13
m q15 7
x q16 q15
m q17 7
x q18 q17
out q14 q16 q18
end
