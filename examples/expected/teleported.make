pattern 1
in sent
n near
n far
n q1
n q2
n q3
n q4
n q5
n q6
n q7
n q8
e sent q4
e sent q6
e near q2
e near q4
e far q1
e q1 q2
e q2 q3
e q3 q7
e q4 q5
e q5 q7
e q6 q8
e q7 q8
m far 0
x near far
x q1 far
x q5 far
x q8 far
z q6 far
m q1 0
x q2 q1
x q4 q1
x q6 q1
x q7 q1
m q2 0
x near q2
x q5 q2
x q8 q2
z q6 q2
m near 0
x q4 near
x q6 near
z q5 near
z q8 near
m q3 0
x q7 q3
z q5 q3
z q8 q3
m sent 0
x q6 sent
z q8 sent
m q4 0
x q5 q4
x q8 q4
z q6 q4
m q7 0
x q8 q7
z q6 q7
out q6 q5 q8
end
