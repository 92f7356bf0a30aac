pattern 1
in
n a
n b
n c
n q1
n q2
e a b
e b q1
e c q1
e c q2
m b 0
x a b
m c 0
x a c
x q1 c
out a q1 q2
end
