pattern 1
in a
n b
n c
n d
n f
e a b
e b c
e c d
e d f
m a 1
x b a
x d a
z f a
m b 2
x c b
x f b
m c 3
x d c
z f c
m d 4
x f d
out f
end
