pattern 1
in a
n q1
n q2
e a q1
e q1 q2
m a 0
x q1 a
z q2 a
m q1 0
x q2 q1
out q2
end
