n = 250000
# The calls of calls.py, within 900 frames.
def add(a, b):
    return a + b
def work(n):
    x = 0
    for i in range(n):
        x = add(x, i)
    return x
def down(depth, n):
    if depth == 1:
        return work(n)
    return down(depth - 1, n)
print(down(900, n))
