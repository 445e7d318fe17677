n = 200000
# A look and a write for each number, in a dictionary of 1,000 keys.
keys = 1000
d = {}
for i in range(keys):
    d[i * 7] = i
def work(n):
    total = 0
    for i in range(n):
        k = (i * 37 % keys) * 7
        total = total + d[k]
        d[k] = i
    return total
print(work(n))
