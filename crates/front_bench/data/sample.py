x = 1
if x < 2:
    print("a" 'b')
