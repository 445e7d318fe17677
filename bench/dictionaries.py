n = 220000
# A dictionary of eight keys.
def work(n):
    names = ['a', 'b', 'c', 'd', 'e', 'f', 'g', 'h']
    d = {}
    for i in range(n):
        k = names[i % 8]
        d[k] = d.get(k, 0) + i
    return d['c']
print(work(n))
