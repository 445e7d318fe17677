n = 120000
# Short strings: glued, made of numbers, changed and searched.
def work(n):
    words = ['the', 'quick', 'brown', 'fox']
    s = 0
    for i in range(n):
        t = words[i % 4] + str(i)
        t = t.upper().replace('1', 'one')
        if t.find('one') < 0:
            s += len(t)
    return s
print(work(n))
