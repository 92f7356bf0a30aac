pattern 1
in a b
n c
n d
e a c
e b c
e b d
e c d
m a 1
x c a
z b a
z d a
m c 5
x d c
z b c
out d b
end
