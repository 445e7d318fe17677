n = 150000
# Lists and attributes, beside 100000 strings that stay.
kept = list('a' * 100000)
class Box(object):
    pass
def work(n):
    b = Box()
    b.n = 0
    a = [0, 0, 0, 0]
    for i in range(n):
        a[i % 4] = i
        b.n = b.n + a[0]
        c = [i]
    return b.n
print(work(n) + len(kept))
