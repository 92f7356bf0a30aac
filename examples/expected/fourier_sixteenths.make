pattern 1 turn 16
in x2 x1 x0
n q1
n q2
n q3
n q4
n q5
n q6
n q7
n q8
n q9
n q10
n q11
n q12
n q13
n q14
n q15
n q16
n q17
n q18
n q19
n q20
n q21
e x2 q1
e x1 q2
e x0 q8
e q1 q4
e q2 q3
e q3 q4
e q3 q6
e q3 q14
e q4 q5
e q5 q6
e q6 q7
e q7 q10
e q8 q9
e q9 q10
e q9 q12
e q9 q15
e q10 q11
e q11 q12
e q12 q13
e q14 q17
e q15 q16
e q16 q17
e q16 q19
e q16 q21
e q17 q18
e q18 q19
e q19 q20
m x2 0
x q1 x2
x q5 x2
x q7 x2
x q11 x2
x q13 x2
m x1 14
x q2 x1
x q14 x1
x q18 x1
x q20 x1
m q1 14
x q4 q1
x q6 q1
x q10 q1
x q12 q1
z q13 q1
m q2 0
x q3 q2
x q5 q2
x q17 q2
x q19 q2
z q20 q2
m q4 0
x q5 q4
x q7 q4
x q11 q4
x q13 q4
m q5 2
x q6 q5
x q10 q5
x q12 q5
x q14 q5
x q18 q5
x q20 q5
z q13 q5
m q6 0
x q7 q6
x q11 q6
x q13 q6
m x0 15
x q8 x0
x q15 x0
x q21 x0
m q7 15
x q10 q7
x q12 q7
z q13 q7
m q3 0
x q14 q3
x q18 q3
x q20 q3
m q8 0
x q9 q8
x q11 q8
x q16 q8
x q18 q8
z q21 q8
m q10 0
x q11 q10
x q13 q10
m q9 14
x q15 q9
x q21 q9
m q11 1
x q12 q11
x q15 q11
x q21 q11
z q13 q11
m q14 14
x q17 q14
x q19 q14
z q20 q14
m q15 0
x q16 q15
x q18 q15
z q21 q15
m q17 0
x q18 q17
x q20 q17
m q18 2
x q19 q18
x q21 q18
z q20 q18
m q12 0
x q13 q12
m q16 0
x q21 q16
m q19 0
x q20 q19
out q21 q20 q13
end
