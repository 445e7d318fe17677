n = 150000
# A list that grows, is gone through, and is written to by index.
def work(n):
    a = []
    for i in range(n):
        a.append(i)
    s = 0
    for x in a:
        s += x
    for i in range(n):
        a[i] = a[n - 1 - i]
    return s + a[0]
print(work(n))
