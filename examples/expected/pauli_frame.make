pattern 2
in a
n b
n c
e a b
e b c
m a 3
x b a
z c a
m b 5
x c b
x c !
out c
end
