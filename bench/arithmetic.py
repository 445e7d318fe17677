n = 250000
# Numbers alone: a generator of numbers that look random.
def work(n):
    x = 1
    i = 0
    while i < n:
        x = (x * 1103515245 + 12345) % 2147483648
        i += 1
    return x
print(work(n))
