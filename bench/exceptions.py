n = 160000
# An exception in each turn, by raise or by a key that isn't there.
def work(n):
    caught = 0
    for i in range(n):
        try:
            if i % 2:
                raise ValueError(i)
            {}[i]
        except ValueError as e:
            caught += 1
        except KeyError:
            caught += 2
    return caught
print(work(n))
