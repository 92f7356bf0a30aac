pattern 1
in
n o1
n o2
n a
n b
n c
e o1 a
e o1 b
e o1 c
e o2 a
e o2 b
e a c
m a 1
x c a
z o1 a
m b 2
x o2 b
x c b
z o1 b
m c 3
x o1 c
x o2 c
out o1 o2
end
