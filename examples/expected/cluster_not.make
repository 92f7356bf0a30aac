graph 1
in q1 q9
n q2
n q3
n q4
n q5
n q6
n q7
n q8
n q10
n q11
n q12
n q13
n q14
n q15
e q1 q2
e q9 q10
e q2 q3
e q3 q4
e q4 q5
e q4 q8
e q5 q6
e q6 q7
e q8 q12
e q10 q11
e q11 q12
e q12 q13
e q13 q14
e q14 q15
m q1 0
m q9 0
m q2 2
m q3 2
m q4 2
m q5 2
m q6 2
m q8 2
m q10 0
m q11 0
m q12 2
m q13 0
m q14 0
out q7 q15
end
noflow 1
y q1 : q1
y q9 : q9
y q2 : q2
y q3 : q3 q8 q11
y q8 : q3 q8 q11
y q10 : q10
y q11 : q3 q8 q11
end
