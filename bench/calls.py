n = 300000
# A call of a function for each number.
def add(a, b):
    return a + b
def work(n):
    x = 0
    for i in range(n):
        x = add(x, i)
    return x
print(work(n))
